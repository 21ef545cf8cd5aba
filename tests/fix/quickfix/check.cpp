// Messages of the library through QuickFIX's typed FIX 4.4 classes: body length and checksum are accepted, each value comes
// back through the field's own type, and no field is there that was not written. `check FILE`

#include "common.h"

#include <cmath>
#include <cstdio>
#include <cstdlib>
#include <iostream>
#include <map>
#include <sstream>

namespace {

typedef std::map<int, std::string> Values;

void differs(const std::string &what, int tag, const std::string &should, const std::string &is) {
    std::ostringstream text;
    text << what << ", tag " << tag << ": should be " << should << ", is " << is;
    throw std::runtime_error(text.str());
}

// A value in its type, against the text that it was written as.
bool is_typed(const FIX::StringField &field, const std::string &text) { return field.getValue() == text; }
bool is_typed(const FIX::CharField &field, const std::string &text) {
    return text.size() == 1 && field.getValue() == text[0];
}
bool is_typed(const FIX::IntField &field, const std::string &text) { return std::to_string(field.getValue()) == text; }
bool is_typed(const FIX::DoubleField &field, const std::string &text) {
    double value = std::strtod(text.c_str(), nullptr);
    return std::fabs(field.getValue() - value) <= std::fabs(value) * 1e-12;
}
bool is_typed(const FIX::CheckSumField &field, const std::string &text) { return field.getValue() == std::atoi(text.c_str()); }
bool is_typed(const FIX::UtcTimeStampField &field, const std::string &text) {
    return FIX::UtcTimeStampConvertor::convert(field.getValue(), 3) == text;
}

int compared = 0;

// One field of a message or of its header or trailer.
template <class Field, class Fields> void back(const char *what, const Fields &from, Values &left) {
    Field field;
    auto value = left.find(field.getTag());
    if (value == left.end()) {
        if (from.isSetField(field.getTag())) differs(what, field.getTag(), "absent", from.getField(field.getTag()));
        return;
    }
    from.getField(field);
    if (field.getString() != value->second) differs(what, field.getTag(), value->second, field.getString());
    if (!is_typed(field, value->second)) differs(what, field.getTag(), value->second, "another value in its type");
    left.erase(value);
    compared++;
}

template <class... Field, class Fields> void each(const char *what, const Fields &from, Values &left) {
    int done[] = {(back<Field>(what, from, left), 0)...};
    (void)done;
}

// As the typed class itself has the field: its own `get`.
template <class Field, class Typed> void own(const Typed &message, Values &left) {
    Field field;
    if (left.find(field.getTag()) == left.end()) {
        if (message.isSet(field)) differs("typed", field.getTag(), "absent", "set");
        return;
    }
    message.get(field);
    back<Field>("typed", message, left);
}

template <class... Field, class Typed> void owned(const Typed &message, Values &left) {
    int done[] = {(own<Field>(message, left), 0)...};
    (void)done;
}

int fields_of(const FIX::FieldMap &map) {
    int count = 0;
    for (auto field = map.begin(); field != map.end(); ++field) count++;
    return count;
}

void check(const Written_message &written) {
    Values left(written.fields.begin(), written.fields.end());
    if (left.size() != written.fields.size()) throw std::runtime_error("a tag stands twice");
    FIX::Message message(written.message, true);
    int found = fields_of(message) + fields_of(message.getHeader()) + fields_of(message.getTrailer());
    if (found != int(left.size())) differs("fields", 0, std::to_string(left.size()), std::to_string(found));
    each<FIX::BeginString, FIX::BodyLength, FIX::MsgType, FIX::SenderCompID, FIX::TargetCompID, FIX::MsgSeqNum,
         FIX::SendingTime>("header", message.getHeader(), left);
    each<FIX::CheckSum>("trailer", message.getTrailer(), left);
    using namespace FIX;
    switch (written.record[0]) {
    case 16:
        owned<OrderID, ClOrdID, OrigClOrdID, Symbol, Side, OrdType, OrderQty, Price, TimeInForce, ExecType, OrdStatus, LastQty,
              CumQty, AvgPx, OrdRejReason, Text, LeavesQty, ExecID, LastPx>(FIX44::ExecutionReport(message), left);
        break;
    case 17:
        owned<OrderID, ClOrdID, OrigClOrdID, OrdStatus, CxlRejReason, Text, CxlRejResponseTo>(
            FIX44::OrderCancelReject(message), left);
        break;
    case 18:
        owned<ClOrdID, Symbol, Side, OrdType, OrderQty, Price, TimeInForce, TransactTime>(FIX44::NewOrderSingle(message), left);
        break;
    case 19:
        owned<ClOrdID, Symbol, Side, OrderQty, OrderID, OrigClOrdID, TransactTime>(FIX44::OrderCancelRequest(message), left);
        break;
    case 20:
        owned<ClOrdID, Symbol, Side, OrdType, OrderQty, Price, TimeInForce, OrderID, OrigClOrdID, TransactTime>(
            FIX44::OrderCancelReplaceRequest(message), left);
        break;
    }
    if (!left.empty()) differs("written, and not in the typed class", left.begin()->first, left.begin()->second, "absent");
}

// Whether QuickFIX refuses a message.
bool refused(const std::string &message) {
    try {
        FIX::Message parsed(message, true);
        return false;
    } catch (FIX::InvalidMessage &) {
        return true;
    }
}

// That it asks for the sum and the length at all: each one off, the sum of the latter mended, is refused.
bool asks(const std::string &message) {
    std::string sum = message, length = message;
    char &digit = sum[sum.size() - 2];
    digit = digit == '9' ? '0' : digit + 1;
    size_t end = length.find('\x01', 10);
    int up = length[end - 1] == '9' ? -1 : 1;
    length[end - 1] += up;
    size_t trailer = length.size() - 7;
    char right[8];
    unsigned total = 0;
    for (size_t at = 0; at < trailer; at++) total += (unsigned char)length[at];
    std::snprintf(right, sizeof right, "10=%03u\x01", total % 256);
    return refused(sum) && refused(length.substr(0, trailer) + right);
}

} // namespace

int main(int count, char **arguments) {
    if (count != 2) return 2;
    Source source(arguments[1]);
    int messages = 0;
    while (source.more()) {
        Written_message written = source.next();
        try {
            check(written);
            if (!asks(written.message)) throw std::runtime_error("a wrong sum or length is taken");
        } catch (std::exception &error) {
            for (char &byte : written.message)
                if (byte == 1) byte = '|';
            std::cout << written.message << "\n" << error.what() << "\n";
            return 1;
        }
        messages++;
    }
    std::cout << "fix: QuickFIX took " << messages << " messages, body length and checksum included, and gave back all "
              << compared << " values\n";
    return 0;
}
