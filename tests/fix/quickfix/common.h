// What the two programs over QuickFIX share.
#ifndef FIX_COMMON_H
#define FIX_COMMON_H

#include <quickfix/Message.h>
#include <quickfix/fix44/ExecutionReport.h>
#include <quickfix/fix44/NewOrderSingle.h>
#include <quickfix/fix44/OrderCancelReject.h>
#include <quickfix/fix44/OrderCancelReplaceRequest.h>
#include <quickfix/fix44/OrderCancelRequest.h>

#include <cstdint>
#include <fstream>
#include <stdexcept>
#include <string>
#include <utility>
#include <vector>

// A message, the fields that it was written with, and the record and header that wrote it, as `fix third` puts them down.
struct Written_message {
    std::string message;
    std::string record;
    std::vector<std::pair<int, std::string>> fields;
};

class Source {
public:
    explicit Source(const char *file) : stream(file, std::ios::binary) {
        if (!stream) throw std::runtime_error(std::string("cannot read ") + file);
    }

    bool more() { return stream.peek() != EOF; }

    uint32_t number() {
        unsigned char bytes[4];
        stream.read(reinterpret_cast<char *>(bytes), 4);
        return bytes[0] | bytes[1] << 8 | bytes[2] << 16 | uint32_t(bytes[3]) << 24;
    }

    std::string text() {
        std::string bytes(number(), '\0');
        stream.read(&bytes[0], bytes.size());
        if (!stream) throw std::runtime_error("the file ends within a text");
        return bytes;
    }

    Written_message next() {
        Written_message next;
        next.message = text();
        next.record = text();
        for (uint32_t count = number(); count > 0; count--) {
            int tag = number();
            next.fields.emplace_back(tag, text());
        }
        return next;
    }

private:
    std::ifstream stream;
};

#endif
