// The desk's books, one after the other, each of at most 32 orders: which book an event goes to, and what stands in them.
#ifndef REHEARSAL_BOOKS_HPP
#define REHEARSAL_BOOKS_HPP

#include <map>
#include <utility>
#include <vector>

#include "record.hpp"

namespace desk {

// Order number n stands in book (n - 1) / ORDERS_PER_BOOK. A book has 256 requests, so that each order may have eight.
const uint64_t ORDERS_PER_BOOK = 32;

// What a book said to an event: a refusal, or 0 and the bytes of the answer.
struct Answer {
    uint32_t refusal;
    Bytes bytes;

    // The records of its messages.
    std::vector<Bytes> messages() const;
    // The alarm and the second alarm; 0 for none.
    int alarm(int which) const { return bytes.size() < 5 ? 0 : uint8_t(bytes[size_t(3 + which)]); }
};

// An order as its book has it (docs/LAYOUT.md).
struct Order {
    std::string name, first_cl_ord_id, symbol;
    uint16_t client;
    char side, status;
    uint64_t ordered, cum;

    bool done() const { return status == '2' || status == '4' || status == 'C' || status == '8'; }
};

class Books {
public:
    // Puts an event to a book, which is made if it is not there yet.
    Answer take(size_t book, const Bytes &record);

    // The name and the book of the next order that is booked.
    std::string next_name() const { return "G" + std::to_string(booked_ + 1); }
    size_t next_book() const { return size_t(booked_ / ORDERS_PER_BOOK); }

    // The book of the number in a downstream ClOrdID, G12 or G12-3; for any other name the newest.
    size_t of_downstream(const std::string &downstream) const;
    // The book in which a client used a ClOrdID; for one that it did not use the newest.
    size_t of_cl_ord_id(uint16_t client, const std::string &cl_ord_id) const;
    bool used(uint16_t client, const std::string &cl_ord_id) const { return used_.count({client, cl_ord_id}) != 0; }

    size_t count() const { return books_.size(); }
    const Bytes &bytes(size_t book) const { return books_[book]; }
    std::vector<Order> orders(size_t book) const;

private:
    size_t newest() const { return books_.empty() ? 0 : books_.size() - 1; }
    void note(size_t book, const Record &event, const Answer &answer);

    std::vector<Bytes> books_;
    uint64_t booked_ = 0;
    std::map<std::pair<uint16_t, std::string>, size_t> used_;
};

// What stands before the `-` of a downstream ClOrdID: the order's name.
std::string name_of(const std::string &downstream);

} // namespace desk

#endif
