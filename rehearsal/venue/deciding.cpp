// Cancels and replaces, decided some time after they came, so that fills cross them.
#include "../common/amount.hpp"
#include "venue.hpp"

void Venue::decide_due(Order &order, long now) {
    for (size_t i = 0; i < order.waiting.size();) {
        Request request = order.waiting[i];
        if (request.due > now && !settled) {
            i++;
            continue;
        }
        if (habits.has("crossing") && !order.done() && random.chance(3000))
            fill(order, order.quantity - order.filled > LOT ? LOT : order.quantity - order.filled, now);
        order.waiting.erase(order.waiting.begin() + static_cast<long>(i));
        decide(order, request, now);
    }
}

void Venue::decide(Order &order, const Request &request, long now) {
    if (refuses(order, request, now))
        return;
    if (request.kind == 'F')
        cancel(order, request, now);
    else
        replace(order, request, now);
}

// What the venue refuses, with its reason; true if it did.
bool Venue::refuses(Order &order, const Request &request, long now) {
    static const char *const reasons[] = {"0", "1", "2", "3", "6", "99", ""};
    std::string reason, text;
    if (order.done()) {
        reason = "0", text = "too late";
    } else if (request.kind == 'G' && request.quantity < order.filled) {
        reason = "99", text = "below filled";
    } else if (habits.has("unknown") && random.chance(request.orig != order.current ? 5000 : 600)) {
        reason = "1", text = "unknown order";
        deeds.note("unknown-name", order, request.clordid, request.orig);
    } else if (habits.has("rejects") && random.chance(1800)) {
        reason = reasons[random.between(0, 6)], text = "not now";
    } else {
        return false;
    }
    refuse(order, request, reason, text, now);
    return true;
}

// A refusal comes behind all reports of its order. One that says that the order is done comes behind a statement of the
// order too if reports of it went out of order: a refusal has a status and no quantity, and the book takes its word.
void Venue::refuse(Order &order, const Request &request, const std::string &reason, const std::string &text, long now) {
    if (request.kind == 'F')
        order.refused = request.clordid;
    if (habits.has("rejects") && !order.done() && reason != "1" && random.chance(1500)) {
        Report report = report_of(order, exec_id(), '8');
        report.clordid = request.clordid;
        report.orig = request.orig;
        report.reason = "99";
        report.text = text;
        deeds.note("reject-by-report", order, request.clordid);
        return post.report(order, report, now);
    }
    deeds.note("reject-" + (reason.empty() ? "none" : reason), order, request.clordid, text);
    Order said = order;
    if (reason == "1")
        said.status = '8'; // FIX 4.4's OrdStatus with CxlRejReason 1, though the order lives on
    FIX::Message reject = cancel_reject(said, request, reason, text);
    if (order.done() && order.disordered)
        state(order, now);
    post.reject(order, reject);
}

void Venue::cancel(Order &order, const Request &request, long now) {
    order.status = '4';
    Report report = report_of(order, exec_id(), '4');
    report.clordid = request.clordid;
    report.orig = order.current;
    deeds.note("cancelled", order, request.clordid);
    post.report(order, report, now);
}

void Venue::replace(Order &order, const Request &request, long now) {
    bool raised = request.quantity > order.quantity, lowered = request.quantity < order.quantity;
    deeds.note(raised    ? "raised"
               : lowered ? "lowered"
                         : "repriced",
               order, request.clordid, show_amount(order.quantity, QTY) + " " + show_amount(request.quantity, QTY));
    order.replaced = order.current;
    order.current = request.clordid;
    order.quantity = request.quantity;
    order.price = request.price;
    order.status = order.live_status();
    Report report = report_of(order, exec_id(), '5');
    report.orig = order.replaced;
    post.report(order, report, now);
}
