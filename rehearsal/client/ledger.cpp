// Adding up what was told.
#include "ledger.hpp"
#include "../common/amount.hpp"
#include "../common/sheet.hpp"
#include <algorithm>
#include <quickfix/FixFieldNumbers.h>

namespace tag = FIX::FIELD;

long ClientOrder::told_last() const {
    long sum = 0;
    for (const auto &report : told)
        sum += report.second;
    return sum;
}

ClientOrder &Ledger::add(long coop, const std::string &first) {
    orders.emplace_back(new ClientOrder());
    ClientOrder &order = *orders.back();
    order.coop = coop;
    order.first = order.accepted = first;
    name(order, first);
    return order;
}

void Ledger::name(ClientOrder &order, const std::string &name) {
    order.names.push_back(name);
    by_name[{order.coop, name}] = &order;
}

ClientOrder *Ledger::find(long coop, const FIX::Message &message) {
    auto found = by_name.find({coop, field(message, tag::ClOrdID)});
    return found == by_name.end() ? nullptr : found->second;
}

void Ledger::take(const Incoming &incoming) {
    long coop = std::stol(incoming.own.substr(4)); // COOP1, COOP2, ..
    std::string type = field(incoming.message.getHeader(), tag::MsgType);
    if (type == "j") {
        refused++;
        return;
    }
    ClientOrder *order = find(coop, incoming.message);
    if (!order || (type != "8" && type != "9")) {
        strays++;
        return;
    }
    if (type == "8")
        return report(*order, incoming.message);
    rejects++;
    if (field(incoming.message, tag::OrderID) != "NONE" && !order->done())
        order->status = field(incoming.message, tag::OrdStatus)[0];
}

void Ledger::report(ClientOrder &order, const FIX::Message &message) {
    std::string exec_id = field(message, tag::ExecID);
    long last = parse_amount(field(message, tag::LastQty), QTY);
    reports++;
    auto known = order.told.find(exec_id);
    if (known != order.told.end()) {
        again++;
        order.conflicts += known->second != last;
        return;
    }
    order.told[exec_id] = last;
    order.told_cum = std::max(order.told_cum, parse_amount(field(message, tag::CumQty), QTY));
    order.status = field(message, tag::OrdStatus)[0];
    order.rejected = order.rejected || order.status == '8';
    order.quantity = parse_amount(field(message, tag::OrderQty), QTY);
    if (field(message, tag::ExecType) == "5")
        order.accepted = field(message, tag::ClOrdID);
}

void Ledger::write(const std::string &path) const {
    Sheet sheet("coop clordid symbol side ordered told_last told_cum status rejected exec_ids conflicts names");
    for (const auto &order : orders) {
        std::string names;
        for (const std::string &name : order->names)
            names += (names.empty() ? "" : " ") + name;
        sheet.row({std::to_string(order->coop), order->first, order->symbol, std::string(1, order->side),
                   show_amount(order->quantity, QTY), show_amount(order->told_last(), QTY),
                   show_amount(order->told_cum, QTY), std::string(1, order->status), order->rejected ? "1" : "0",
                   std::to_string(order->told.size()), std::to_string(order->conflicts), names});
    }
    sheet.write(path);
}
