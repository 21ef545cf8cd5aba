// Records of the book, built and read field by field (docs/SCOPE.md, Records), and decimals as whole counts.
#ifndef REHEARSAL_RECORD_HPP
#define REHEARSAL_RECORD_HPP

#include <cstdint>
#include <map>
#include <string>

#include "gateway.h"

namespace desk {

using Bytes = std::string;

// A kind and fields by their bit (JUBAFIYE_CLIENT and so on). A field that does not fit its place is cut; whether the values
// are in range is the book's question.
class Record {
public:
    explicit Record(int kind) : kind_(kind) {}

    // The record in these bytes. Throws std::invalid_argument if they are not whole.
    static Record read(const Bytes &bytes);

    Record &number(int field, uint64_t value);
    Record &code(int field, char value) { return number(field, uint8_t(value)); }
    Record &text(int field, const std::string &value);
    Record &mark(int field) { return text(field, ""); }

    int kind() const { return kind_; }
    bool has(int field) const { return fields_.count(field) != 0; }
    // The lowest 64 bits of a field, 0 if it is absent.
    uint64_t number(int field) const;
    char code(int field) const { return char(number(field)); }
    // A text, empty if it is absent.
    std::string text(int field) const;

    Bytes bytes() const;

private:
    int kind_;
    std::map<int, std::string> fields_;
};

const int QTY_PLACES = 4;
const int PRICE_PLACES = 8;

// The count of 10^-places in a FIX decimal. False if the text is none, is below 0, needs more places or has over 10^17.
bool read_decimal(const std::string &text, int places, uint64_t &count);

// A count of 10^-places as a decimal with all its places.
std::string decimal(uint64_t count, int places);

} // namespace desk

#endif
