// Messages to a client that the book did not make, for what it refused or was never asked. They claim nothing of the book.
#ifndef REHEARSAL_BY_HAND_HPP
#define REHEARSAL_BY_HAND_HPP

#include <quickfix/Message.h>

namespace desk {

// FIX 4.4's OrdRejReason(103) and BusinessRejectReason(380) that are used here.
const int DUPLICATE_ORDER = 6;
const int OTHER_REASON = 99;
const int UNKNOWN_MESSAGE_TYPE = 3;
const int BUSINESS_OTHER = 0;

// For a NewOrderSingle(D): ExecutionReport(8) with ExecType(150) and OrdStatus(39) 8, Rejected, OrderID(37) NONE, all
// quantities 0. There is no such order here.
FIX::Message order_rejected(const FIX::Message &request, const std::string &exec_id, int reason, const std::string &text);

// For a cancel, a replace or any other message: BusinessMessageReject(j) with the ClOrdID in BusinessRejectRefID(379). An
// OrderCancelReject(9) would have to say an OrdStatus, which only the book knows.
FIX::Message business_rejected(const FIX::Message &request, int reason, const std::string &text);

// In words what a refusal of `event` means to a client.
std::string refusal_text(uint32_t refusal);

} // namespace desk

#endif
