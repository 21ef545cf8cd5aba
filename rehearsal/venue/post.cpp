// Sending, holding back and repeating.
#include "post.hpp"
#include <limits>

namespace {
const Line ORDERS = {"VENUE", "GATEWAY"}, DROP = {"VENUEDROP", "GATEWAY"};
}

void Post::send_now(FIX::Message message, const Line &line) {
    send(message, line);
    sent++;
}

void Post::on(const Line &line, Order &order, const Report &report, long now) {
    FIX::Message made = execution_report(report);
    if (habits.has("late") && random.chance(1000)) {
        deeds.note("late", order, report.clordid, line.own + " " + report.exec_id);
        order.disordered = true;
        waiting.push_back({now + random.between(80, 1200), order.id, line, made});
        return;
    }
    send_now(made, line);
    if (!habits.has("repeated") || !random.chance(800))
        return;
    bool marked = habits.has("resend") && random.chance(5000);
    if (marked)
        made.getHeader().setField(FIX::FIELD::PossResend, "Y");
    deeds.note(marked ? "repeated-possresend" : "repeated", order, report.clordid, line.own + " " + report.exec_id);
    waiting.push_back({now + random.between(20, 900), order.id, line, made});
}

void Post::report(Order &order, const Report &report, long now) {
    on(ORDERS, order, report, now);
    if (habits.has("drop"))
        on(DROP, order, report, now);
}

void Post::stray(const Report &report) {
    send_now(execution_report(report), ORDERS);
    if (habits.has("drop"))
        send_now(execution_report(report), DROP);
}

void Post::reject(const Order &order, FIX::Message reject) {
    for (Held &held : waiting)
        if (held.order_id == order.id && held.line.own == ORDERS.own)
            held.due = std::numeric_limits<long>::min();
    run(std::numeric_limits<long>::min());
    send_now(std::move(reject), ORDERS);
}

void Post::run(long now) {
    for (auto held = waiting.begin(); held != waiting.end();) {
        if (held->due > now) {
            ++held;
            continue;
        }
        send_now(held->message, held->line);
        held = waiting.erase(held);
    }
}

void Post::release() { run(std::numeric_limits<long>::max()); }
