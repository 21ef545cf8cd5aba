// FIX messages to event records. Texts are cleaned and ids are not, as docs/FIX.md, Sending, says.
#include "turn.hpp"

namespace desk {

namespace {

bool has_control(const std::string &text) {
    for (char c : text)
        if (uint8_t(c) < 32) return true;
    return false;
}

// An id or a symbol: it goes back byte for byte, so that one which cannot be sent is turned away.
std::string id(const FIX::Message &message, int tag, size_t most) {
    const std::string text = value(message, tag);
    if (text.empty()) throw TurnedAway(tag, "is missing");
    if (text.size() > most) throw TurnedAway(tag, "is longer than " + std::to_string(most));
    if (has_control(text)) throw TurnedAway(tag, "has a byte below 32");
    return text;
}

char code(const FIX::Message &message, int tag) {
    const std::string text = value(message, tag);
    if (text.size() != 1) throw TurnedAway(tag, text.empty() ? "is missing" : "is no code");
    return text[0];
}

uint64_t count(const FIX::Message &message, int tag, int places) {
    uint64_t number = 0;
    const std::string text = value(message, tag);
    if (text.empty()) throw TurnedAway(tag, "is missing");
    if (!read_decimal(text, places, number)) throw TurnedAway(tag, "is no number of " + std::to_string(places) + " places");
    return number;
}

void put_count(Record &record, int field, const FIX::Message &message, int tag, int places) {
    if (!value(message, tag).empty()) record.number(field, count(message, tag, places));
}

void put_code(Record &record, int field, const FIX::Message &message, int tag) {
    if (!value(message, tag).empty()) record.code(field, code(message, tag));
}

// A quantity or price of a report that may be left out, and is 0 then.
uint64_t count_or_0(const FIX::Message &message, int tag, int places) {
    return value(message, tag).empty() ? 0 : count(message, tag, places);
}

// A text cleaned: a blank for each byte below 32, at most 64 bytes, left out if it is empty.
void put_text(Record &record, std::string text) {
    text = text.substr(0, 64);
    for (char &c : text)
        if (uint8_t(c) < 32) c = ' ';
    if (!text.empty()) record.text(JUBAFIYE_TEXT, text);
}

// The venue's OrderID(37): one that cannot be sent back is left out.
void put_order_id(Record &record, const FIX::Message &message) {
    const std::string order_id = value(message, 37);
    if (!order_id.empty() && order_id.size() <= 32 && !has_control(order_id)) record.text(JUBAFIYE_VENUE_ORDER_ID, order_id);
}

// The venue's reason and text. A reason above 2^31 - 1, which readers take for another, is 99 with the number in the text.
void put_reason(Record &record, const FIX::Message &message, int tag) {
    uint64_t reason = 0;
    std::string text = value(message, 58);
    const std::string given = value(message, tag);
    if (!given.empty()) {
        const bool plain = read_decimal(given, 0, reason) && reason <= 2147483647;
        if (!plain) text = "reason " + given + (text.empty() ? "" : ": " + text);
        record.number(JUBAFIYE_REASON, plain ? reason : 99);
    }
    put_text(record, text);
}

// What a cancel and a replace share.
Record amendment(int kind, const FIX::Message &message, uint16_t client) {
    Record record(kind);
    record.number(JUBAFIYE_CLIENT, client)
        .text(JUBAFIYE_CL_ORD_ID, id(message, 11, 32))
        .text(JUBAFIYE_ORIG_CL_ORD_ID, id(message, 41, 32))
        .text(JUBAFIYE_SYMBOL, id(message, 55, 16))
        .code(JUBAFIYE_SIDE, code(message, 54));
    if (redelivered(message)) record.mark(JUBAFIYE_REDELIVERED);
    return record;
}

Record of_venue(int kind, const std::string &downstream) {
    return Record(kind).number(JUBAFIYE_VENUE, VENUE_NUMBER).text(JUBAFIYE_DOWNSTREAM, downstream);
}

} // namespace

Record booking(const FIX::Message &message, uint16_t client, const std::string &name) {
    Record record(JUBAFIYE_EVENT_BOOK);
    record.number(JUBAFIYE_CLIENT, client)
        .number(JUBAFIYE_VENUE, VENUE_NUMBER)
        .text(JUBAFIYE_NAME, name)
        .text(JUBAFIYE_CL_ORD_ID, id(message, 11, 32))
        .text(JUBAFIYE_SYMBOL, id(message, 55, 16))
        .code(JUBAFIYE_SIDE, code(message, 54))
        .code(JUBAFIYE_ORD_TYPE, code(message, 40))
        .number(JUBAFIYE_QTY, count(message, 38, QTY_PLACES));
    put_count(record, JUBAFIYE_PRICE, message, 44, PRICE_PLACES);
    put_code(record, JUBAFIYE_TIME_IN_FORCE, message, 59);
    return record;
}

Record cancel(const FIX::Message &message, uint16_t client) {
    return amendment(JUBAFIYE_EVENT_CANCEL, message, client);
}

// Admission is not rehearsed: the verdict is 0, pass.
Record replace(const FIX::Message &message, uint16_t client) {
    Record record = amendment(JUBAFIYE_EVENT_REPLACE, message, client);
    record.number(JUBAFIYE_QTY, count(message, 38, QTY_PLACES)).number(JUBAFIYE_VERDICT, 0);
    put_code(record, JUBAFIYE_ORD_TYPE, message, 40);
    put_count(record, JUBAFIYE_PRICE, message, 44, PRICE_PLACES);
    put_code(record, JUBAFIYE_TIME_IN_FORCE, message, 59);
    return record;
}

// The order is named by ClOrdID(11) as the venue gives it, whichever of the order's ClOrdIDs that is.
Record venue_report(const FIX::Message &message) {
    Record record = of_venue(JUBAFIYE_EVENT_VENUE_REPORT, id(message, 11, 32));
    record.code(JUBAFIYE_EXEC_TYPE, code(message, 150))
        .number(JUBAFIYE_LAST_QTY, count_or_0(message, 32, QTY_PLACES))
        .number(JUBAFIYE_LAST_PX, count_or_0(message, 31, PRICE_PLACES))
        .number(JUBAFIYE_CUM_QTY, count(message, 14, QTY_PLACES))
        .number(JUBAFIYE_AVG_PX, count_or_0(message, 6, PRICE_PLACES));
    put_code(record, JUBAFIYE_ORD_STATUS, message, 39);
    put_order_id(record, message);
    put_reason(record, message, 103);
    return record;
}

// FIX 4.4 has OrdStatus 8 with CxlRejReason 1, unknown order, whatever became of the order. The book would take it for the
// order's end, and fills of an order that lives on would be alarms and not told. So the status is left out there.
Record cancel_reject(const FIX::Message &message, bool as_it_comes) {
    Record record = of_venue(JUBAFIYE_EVENT_CANCEL_REJECT, id(message, 11, 32));
    const bool formal = value(message, 102) == "1" && value(message, 39) == "8";
    if (!formal || as_it_comes) put_code(record, JUBAFIYE_ORD_STATUS, message, 39);
    put_order_id(record, message);
    put_reason(record, message, 102);
    return record;
}

// The venue's application did not take a request, BusinessRejectRefID(379): it never became one there.
Record send_failed(const FIX::Message &message) {
    Record record = of_venue(JUBAFIYE_EVENT_SEND_FAILED, id(message, 379, 32));
    const std::string text = value(message, 58);
    put_text(record, text.empty() ? "not taken by the venue" : text);
    return record;
}

Record send_again(const std::string &downstream) {
    return of_venue(JUBAFIYE_EVENT_SEND_AGAIN, downstream);
}

Record gateway_cancel(const std::string &name) {
    return Record(JUBAFIYE_EVENT_GATEWAY_CANCEL).text(JUBAFIYE_NAME, name);
}

bool redelivered(const FIX::Message &message) {
    const FIX::Header &header = message.getHeader();
    const auto says = [&](int tag) { return header.isSetField(tag) && header.getField(tag) == "Y"; };
    return says(43) || says(97);
}

std::string message_type(const FIX::Message &message) {
    return message.getHeader().isSetField(35) ? message.getHeader().getField(35) : "";
}

std::string value(const FIX::Message &message, int tag) {
    return message.isSetField(tag) ? message.getField(tag) : "";
}

} // namespace desk
