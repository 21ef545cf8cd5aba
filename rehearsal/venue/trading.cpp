// Fills, and what else befalls an order by itself.
#include "../common/amount.hpp"
#include "venue.hpp"
#include <algorithm>

void Venue::trade(Order &order, long now) {
    long left = order.quantity - order.filled;
    if (left == 0 || !market.reaches(order.symbol, order.side, order.price) || !random.chance(250))
        return;
    bool all = left <= LOT || random.chance(2500);
    fill(order, all ? left : random.between(1, left / LOT) * LOT, now);
}

void Venue::fill(Order &order, long quantity, long now) {
    long price = market.price(order.symbol);
    order.filled += quantity;
    order.notional += static_cast<__int128>(quantity) * price;
    order.status = order.live_status();
    order.resumes = -1;
    note_crossings(order);
    Report report = report_of(order, exec_id(), 'F');
    report.last = quantity;
    report.last_price = price;
    report.clordid = name_in_fill(order);
    if (habits.has("short") && !order.done() && random.chance(500)) {
        report.status = '2';
        deeds.note("short", order, report.clordid, show_amount(order.filled, QTY));
    }
    fills.push_back({order.id, report.clordid, report.exec_id, quantity, price});
    post.report(order, report, now);
    if (habits.has("incident") && report.clordid == order.replaced && random.chance(5000))
        state(order, now);
}

// The incident: fills under the replaced ClOrdID, and now and then under that of a cancel that was refused.
std::string Venue::name_in_fill(Order &order) {
    if (habits.has("incident") && !order.replaced.empty() && random.chance(7000)) {
        deeds.note("incident", order, order.replaced, order.current);
        return order.replaced;
    }
    if (habits.has("incident") && !order.refused.empty() && random.chance(2000)) {
        deeds.note("fill-under-cancel", order, order.refused, order.current);
        return order.refused;
    }
    return order.current;
}

void Venue::note_crossings(const Order &order) {
    for (const Request &request : order.waiting)
        deeds.note(request.kind == 'F' ? "fill-crosses-cancel" : "fill-crosses-replace", order, request.clordid);
}

// A status report, under the current ClOrdID.
void Venue::state(Order &order, long now) {
    deeds.note("stated", order, order.current);
    post.report(order, report_of(order, exec_id(), 'I'), now);
}

void Venue::finish(Order &order, char status, long now) {
    order.status = status;
    deeds.note(status == 'C' ? "expired" : "cancelled-unasked", order, order.current);
    post.report(order, report_of(order, exec_id(), status), now);
}

void Venue::befall(Order &order, long now) {
    if (order.resumes >= 0 && now >= order.resumes) {
        order.resumes = -1;
        order.status = order.live_status();
        post.report(order, report_of(order, exec_id(), 'D'), now);
    } else if (habits.has("incident") && random.chance(15)) {
        state(order, now);
    } else if (habits.has("doneday") && order.resumes < 0 && random.chance(8)) {
        order.status = '3';
        order.resumes = now + random.between(200, 1500);
        deeds.note("done-for-day", order, order.current);
        post.report(order, report_of(order, exec_id(), '3'), now);
    } else if (habits.has("unknown") && random.chance(5)) {
        Report report = report_of(order, exec_id(), 'I');
        report.status = '8';
        report.reason = "5";
        deeds.note("denied", order, order.current);
        post.report(order, report, now);
    } else if (random.chance(3)) {
        finish(order, 'C', now);
    }
}

// A report of, or a reject for, an order that nobody knows.
void Venue::stray() {
    Order order;
    strays++;
    order.id = "V-Z" + std::to_string(strays);
    order.current = random.chance(5000) ? "Z" + std::to_string(strays) : "G9" + std::to_string(900000 + strays);
    order.symbol = "WHEATH27";
    order.quantity = 100 * LOT;
    order.status = '1';
    order.filled = 40 * LOT;
    order.notional = static_cast<__int128>(order.filled) * UNIT;
    deeds.note("unknown", order, order.current);
    if (random.chance(7000)) {
        Report report = report_of(order, exec_id(), 'F');
        report.last = order.filled;
        report.last_price = UNIT;
        return post.stray(report);
    }
    post.reject(order, cancel_reject(order, {'F', order.current, "Z", 0, 0, 0}, "1", "unknown order"));
}

void Venue::run(long now) {
    market.move();
    if (!settled && habits.has("unknown") && !orders.empty() && random.chance(30))
        stray();
    for (auto &order : orders) {
        decide_due(*order, now);
        if (!settled && !order->done())
            trade(*order, now);
        if (!settled && !order->done())
            befall(*order, now);
    }
    post.run(now);
}

void Venue::settle(long now) {
    settled = true;
    run(now);
    for (auto &order : orders) {
        long way = order->done() ? 9 : random.between(0, 8);
        if (way < 4 && !order->whole())
            fill(*order, order->quantity - order->filled, now);
        else if (way < 6)
            finish(*order, '4', now);
        else if (way < 7)
            finish(*order, 'C', now);
    }
    post.release();
    for (auto &order : orders)
        if (order->disordered)
            state(*order, now);
    post.release();
}
