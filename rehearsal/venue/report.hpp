// An ExecutionReport or OrderCancelReject of the venue before it is sent.
#pragma once
#include "../common/wire.hpp"
#include "order.hpp"

struct Report {
    std::string exec_id, order_id, clordid, orig, symbol, text, reason;
    char side, exec_type, status;
    long quantity, last, last_price, filled, average, leaves;
};

// The order as it stands, under its current ClOrdID and with no fill.
Report report_of(const Order &order, const std::string &exec_id, char exec_type);
FIX::Message execution_report(const Report &report);
// An OrderCancelReject of a request; an empty reason is left out.
FIX::Message cancel_reject(const Order &order, const Request &request, const std::string &reason,
                           const std::string &text);
