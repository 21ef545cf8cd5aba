// What the desk sends: new orders, cancels and replaces.
#include "../common/amount.hpp"
#include "venue.hpp"
#include <iostream>

namespace tag = FIX::FIELD;

Venue::Venue(const Habits &chosen, uint64_t seed)
    : habits(chosen), random(seed), market(seed + 1), post(habits, deeds, seed + 2) {}

void Venue::take(const Incoming &incoming, long now) {
    const FIX::Message &message = incoming.message;
    std::string type = field(message.getHeader(), tag::MsgType);
    bool marked = field(message.getHeader(), tag::PossResend) == "Y";
    if (type == "D")
        take_order(message, marked, now);
    else if (type == "F" || type == "G")
        take_request(message, type[0], marked, now);
    else
        std::cerr << "venue: a message of type " << type << "\n";
}

// An order whose ClOrdID is known is left alone only if it is marked as a possible resend; without the mark it is
// another order.
void Venue::take_order(const FIX::Message &message, bool marked, long now) {
    std::string name = field(message, tag::ClOrdID);
    if (by_name.count(name)) {
        deeds.note(marked ? "possresend-known" : "twice", *by_name[name], name, "D");
        if (marked)
            return;
    } else if (marked)
        deeds.note("possresend-new", "", name, "D");
    orders.emplace_back(new Order());
    Order &order = *orders.back();
    order.id = "V-" + std::to_string(orders.size());
    order.first = order.current = name;
    order.symbol = field(message, tag::Symbol);
    order.side = field(message, tag::Side)[0];
    order.type = field(message, tag::OrdType)[0];
    order.quantity = parse_amount(field(message, tag::OrderQty), QTY);
    order.price = order.type == '2' ? parse_amount(field(message, tag::Price), PRICE) : 0;
    by_name[name] = &order;
    market.price(order.symbol);
    if (habits.has("rejects") && random.chance(300)) {
        order.status = '8';
        Report report = report_of(order, exec_id(), '8');
        report.reason = std::to_string(random.between(0, 3));
        report.text = "not today";
        deeds.note("order-rejected", order, name, report.reason);
        return post.report(order, report, now);
    }
    if (habits.has("pending") && random.chance(2000)) {
        Report report = report_of(order, exec_id(), 'A');
        report.status = 'A';
        post.report(order, report, now);
    }
    post.report(order, report_of(order, exec_id(), '0'), now);
}

void Venue::take_request(const FIX::Message &message, char kind, bool marked, long now) {
    Request request = {kind, field(message, tag::ClOrdID), field(message, tag::OrigClOrdID), 0, 0, now};
    auto found = by_name.find(request.orig);
    if (found == by_name.end()) {
        Order nobody;
        nobody.id = "NONE";
        nobody.status = '8';
        deeds.note("request-for-nothing", "", request.clordid, request.orig);
        return post.reject(nobody, cancel_reject(nobody, request, "1", "unknown order"));
    }
    Order &order = *found->second;
    if (by_name.count(request.clordid)) {
        deeds.note(marked ? "possresend-known" : "twice", order, request.clordid, std::string(1, kind));
        return;
    }
    if (marked)
        deeds.note("possresend-new", order, request.clordid, std::string(1, kind));
    by_name[request.clordid] = &order;
    if (kind == 'G') {
        request.quantity = parse_amount(field(message, tag::OrderQty), QTY);
        request.price = order.type == '2' ? parse_amount(field(message, tag::Price), PRICE) : 0;
    }
    request.due = now + (settled ? 0 : random.between(0, habits.has("crossing") ? 400 : 20));
    order.waiting.push_back(request);
    if (habits.has("pending") && !order.done() && random.chance(3000)) {
        Report report = report_of(order, exec_id(), kind == 'F' ? '6' : 'E');
        report.status = report.exec_type;
        report.clordid = request.clordid;
        report.orig = order.current;
        deeds.note("pending", order, request.clordid);
        post.report(order, report, now);
    }
}
