// The venue's messages as FIX 4.4.
#include "report.hpp"
#include "../common/amount.hpp"
#include <quickfix/FixFieldNumbers.h>

namespace tag = FIX::FIELD;

Report report_of(const Order &order, const std::string &exec_id, char exec_type) {
    Report made = {};
    made.exec_id = exec_id;
    made.order_id = order.id;
    made.clordid = order.current;
    made.symbol = order.symbol;
    made.side = order.side;
    made.exec_type = exec_type;
    made.status = order.status;
    made.quantity = order.quantity;
    made.filled = order.filled;
    made.average = order.average();
    made.leaves = order.leaves();
    return made;
}

FIX::Message execution_report(const Report &report) {
    FIX::Message made = message("8");
    made.setField(tag::OrderID, report.order_id);
    made.setField(tag::ClOrdID, report.clordid);
    if (!report.orig.empty())
        made.setField(tag::OrigClOrdID, report.orig);
    made.setField(tag::ExecID, report.exec_id);
    made.setField(tag::ExecType, std::string(1, report.exec_type));
    made.setField(tag::OrdStatus, std::string(1, report.status));
    made.setField(tag::Symbol, report.symbol);
    made.setField(tag::Side, std::string(1, report.side));
    made.setField(tag::OrderQty, show_amount(report.quantity, QTY));
    made.setField(tag::LastQty, show_amount(report.last, QTY));
    made.setField(tag::LastPx, show_amount(report.last_price, PRICE));
    made.setField(tag::CumQty, show_amount(report.filled, QTY));
    made.setField(tag::AvgPx, show_amount(report.average, PRICE));
    made.setField(tag::LeavesQty, show_amount(report.leaves, QTY));
    if (!report.reason.empty())
        made.setField(tag::OrdRejReason, report.reason);
    if (!report.text.empty())
        made.setField(tag::Text, report.text);
    made.setField(tag::TransactTime, time_now());
    return made;
}

FIX::Message cancel_reject(const Order &order, const Request &request, const std::string &reason,
                           const std::string &text) {
    FIX::Message made = message("9");
    made.setField(tag::OrderID, order.id);
    made.setField(tag::ClOrdID, request.clordid);
    made.setField(tag::OrigClOrdID, request.orig);
    made.setField(tag::OrdStatus, std::string(1, order.status));
    made.setField(tag::CxlRejResponseTo, request.kind == 'F' ? "1" : "2");
    if (!reason.empty())
        made.setField(tag::CxlRejReason, reason);
    made.setField(tag::Text, text);
    made.setField(tag::TransactTime, time_now());
    return made;
}
