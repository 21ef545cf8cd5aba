// Books: routing, events, and the orders read from a book's bytes.
#include "books.hpp"

#include <cstdlib>
#include <stdexcept>

#include "fix.h"

namespace desk {

namespace {

// The most ClOrdIDs that a client may use in a book: more than it has room for.
const uint32_t SETTING = 10000;

const uint8_t *data(const Bytes &bytes) {
    return reinterpret_cast<const uint8_t *>(bytes.data());
}

uint8_t *data(Bytes &bytes) {
    return reinterpret_cast<uint8_t *>(&bytes[0]);
}

// Where things stand in a book: docs/LAYOUT.md.
const size_t ORDERS_AT = 256, ORDER_BYTES = 256, REQUESTS_AT = 16640, REQUEST_BYTES = 128;

uint64_t number_at(const Bytes &book, size_t at, int bytes) {
    uint64_t value = 0;
    for (int byte = bytes - 1; byte >= 0; byte--) value = value << 8 | uint8_t(book[at + size_t(byte)]);
    return value;
}

std::string text_at(const Bytes &book, size_t at) {
    return book.substr(at, uint8_t(book[at + 32]));
}

// The ClOrdID under which order number `order` of a book was booked: that of its request of kind 0.
std::string first_cl_ord_id(const Bytes &book, size_t order) {
    const size_t requests = size_t(number_at(book, 2, 2));
    for (size_t request = 0; request < requests; request++) {
        const size_t at = REQUESTS_AT + REQUEST_BYTES * request;
        if (number_at(book, at, 2) == order && book[at + 2] == 0) return text_at(book, at + 4);
    }
    return "";
}

Order order_at(const Bytes &book, size_t order) {
    const size_t at = ORDERS_AT + ORDER_BYTES * order;
    Order found;
    found.client = uint16_t(number_at(book, at, 2));
    found.name = text_at(book, at + 4);
    found.first_cl_ord_id = first_cl_ord_id(book, order);
    found.symbol = text_at(book, at + 103);
    found.side = book[at + 169];
    found.ordered = number_at(book, at + 172, 8);
    found.status = book[at + 188];
    found.cum = number_at(book, at + 189, 8);
    return found;
}

} // namespace

std::vector<Bytes> Answer::messages() const {
    std::vector<Bytes> found;
    for (uint32_t n = 0; !bytes.empty(); n++) {
        const Place place = ::message_at(data(bytes), bytes.size(), n);
        if (place.refusal != 0) throw std::runtime_error("an answer that does not read");
        if (place.length == 0) break;
        found.push_back(bytes.substr(place.at, place.length));
    }
    return found;
}

Answer Books::take(size_t book, const Bytes &record) {
    while (books_.size() <= book) {
        books_.push_back(Bytes(JUBAFIYE_BOOK_BYTES, '\0'));
        ::start(data(books_.back()), JUBAFIYE_BOOK_BYTES, SETTING);
    }
    Bytes answer(JUBAFIYE_ANSWER_BYTES, '\0');
    Bytes &bytes = books_[book];
    const uint32_t refusal = ::event(data(bytes), bytes.size(), data(record), record.size(), data(answer), answer.size());
    answer.resize(refusal ? 0 : size_t(number_at(answer, 0, 2)));
    const Answer said{refusal, answer};
    if (refusal == JUBAFIYE_TAKEN) note(book, Record::read(record), said);
    return said;
}

// Notes the ClOrdID of a booking, and of a cancel or replace that went out.
void Books::note(size_t book, const Record &event, const Answer &answer) {
    const bool booked = event.kind() == JUBAFIYE_EVENT_BOOK;
    if (!booked && event.kind() != JUBAFIYE_EVENT_CANCEL && event.kind() != JUBAFIYE_EVENT_REPLACE) return;
    bool out = booked;
    for (const Bytes &message : answer.messages())
        out = out || message[0] == JUBAFIYE_MESSAGE_CANCEL || message[0] == JUBAFIYE_MESSAGE_REPLACE;
    if (out) used_[{uint16_t(event.number(JUBAFIYE_CLIENT)), event.text(JUBAFIYE_CL_ORD_ID)}] = book;
    booked_ += booked;
}

size_t Books::of_downstream(const std::string &downstream) const {
    const std::string name = name_of(downstream);
    uint64_t number = 0;
    if (name.size() < 2 || name[0] != 'G' || !read_decimal(name.substr(1), 0, number)) return newest();
    return number == 0 || number > booked_ ? newest() : size_t((number - 1) / ORDERS_PER_BOOK);
}

size_t Books::of_cl_ord_id(uint16_t client, const std::string &cl_ord_id) const {
    const auto found = used_.find({client, cl_ord_id});
    return found == used_.end() ? newest() : found->second;
}

std::vector<Order> Books::orders(size_t book) const {
    std::vector<Order> found;
    const size_t count = size_t(number_at(books_[book], 0, 2));
    for (size_t order = 0; order < count; order++) found.push_back(order_at(books_[book], order));
    return found;
}

std::string name_of(const std::string &downstream) {
    return downstream.substr(0, downstream.find('-'));
}

} // namespace desk
