// Messages made by hand.
#include "by_hand.hpp"

#include "turn.hpp"

namespace desk {

namespace {

FIX::Message message_of_type(const std::string &type) {
    FIX::Message message;
    message.getHeader().setField(8, "FIX.4.4");
    message.getHeader().setField(35, type);
    return message;
}

void copy(FIX::Message &to, const FIX::Message &from, int tag) {
    if (!value(from, tag).empty()) to.setField(tag, value(from, tag));
}

} // namespace

FIX::Message order_rejected(const FIX::Message &request, const std::string &exec_id, int reason, const std::string &text) {
    FIX::Message report = message_of_type("8");
    report.setField(37, "NONE");
    report.setField(17, exec_id);
    report.setField(150, "8");
    report.setField(39, "8");
    report.setField(103, std::to_string(reason));
    for (int tag : {11, 55, 54, 38, 40}) copy(report, request, tag);
    for (int tag : {14, 151, 6}) report.setField(tag, "0");
    report.setField(58, text);
    return report;
}

FIX::Message business_rejected(const FIX::Message &request, int reason, const std::string &text) {
    FIX::Message reject = message_of_type("j");
    if (request.getHeader().isSetField(34)) reject.setField(45, request.getHeader().getField(34));
    reject.setField(372, message_type(request));
    if (!value(request, 11).empty()) reject.setField(379, value(request, 11));
    reject.setField(380, std::to_string(reason));
    reject.setField(58, text);
    return reject;
}

std::string refusal_text(uint32_t refusal) {
    switch (refusal) {
    case JUBAFIYE_REFUSED_RECORD: return "refused: a field is missing or not expected";
    case JUBAFIYE_REFUSED_RANGE: return "refused: a field is out of its range";
    case JUBAFIYE_REFUSED_IN_USE: return "refused: the ClOrdID is in use";
    case JUBAFIYE_REFUSED_PRICE: return "refused: a price goes with a limit order alone";
    case JUBAFIYE_REFUSED_FULL: return "refused: no room for the request";
    default: return "refused: " + std::to_string(refusal);
    }
}

} // namespace desk
