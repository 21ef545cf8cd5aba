// Ordering, cancelling and replacing.
#include "trader.hpp"
#include "../common/amount.hpp"
#include "../common/symbols.hpp"
#include <algorithm>
#include <quickfix/FixFieldNumbers.h>

namespace tag = FIX::FIELD;

namespace {
const long AMENDMENTS = 4; // so that 32 orders never need a book's 256 requests

Line line_of(long coop) { return {"COOP" + std::to_string(coop), "GATEWAY"}; }

FIX::Message about(const std::string &type, const ClientOrder &order, const std::string &name) {
    FIX::Message made = message(type);
    made.setField(tag::ClOrdID, name);
    made.setField(tag::Symbol, order.symbol);
    made.setField(tag::Side, std::string(1, order.side));
    made.setField(tag::TransactTime, time_now());
    return made;
}

void put_terms(FIX::Message &made, const ClientOrder &order, long quantity, long price) {
    made.setField(tag::OrderQty, show_amount(quantity, QTY));
    made.setField(tag::OrdType, std::string(1, order.type));
    if (order.type == '2')
        made.setField(tag::Price, show_amount(price, PRICE));
}
} // namespace

Trader::Trader(Ledger &ledger, uint64_t seed, long orders, long coops, long within)
    : ledger(ledger), random(seed), orders(orders), coops(coops), within(within) {}

std::string Trader::next_name() { return "C" + std::to_string(++number); }

void Trader::order() {
    ClientOrder &order = ledger.add(random.between(1, coops), next_name());
    order.symbol = symbols()[static_cast<size_t>(random.between(0, 3))];
    order.side = random.chance(5000) ? '1' : random.chance(8000) ? '2' : '5';
    order.type = random.chance(7500) ? '2' : '1';
    order.quantity = random.between(1, 40) * 5 * LOT + (random.chance(1000) ? random.between(1, 9999) : 0);
    order.price = (base_price(order.symbol) + random.between(-30, 30)) * (UNIT / 100);
    FIX::Message made = about("D", order, order.first);
    put_terms(made, order, order.quantity, order.price);
    made.setField(tag::TimeInForce, random.chance(5000) ? "0" : "1");
    send_some_twice(made, order);
}

// Now and then the same message goes out once more, marked as a possible resend.
void Trader::send_some_twice(FIX::Message &made, const ClientOrder &order) {
    send(made, line_of(order.coop));
    if (!random.chance(400))
        return;
    FIX::Message copy = made;
    copy.getHeader().setField(tag::PossResend, "Y");
    send(copy, line_of(order.coop));
    again++;
}

long Trader::new_quantity(const ClientOrder &order) {
    if (random.chance(2500))
        return order.quantity;
    if (random.chance(5000))
        return order.quantity + random.between(1, 10) * 5 * LOT;
    return std::max(LOT, order.quantity / LOT * random.between(3, 9) / 10 * LOT);
}

// The OrigClOrdID is the name accepted last, or any that was used: one that crosses, or one that was refused.
void Trader::amend(ClientOrder &order) {
    std::string name = next_name();
    std::string orig =
        random.chance(7500)
            ? order.accepted
            : order.names[static_cast<size_t>(random.between(0, static_cast<long>(order.names.size()) - 1))];
    bool cancels = random.chance(3000);
    FIX::Message made = about(cancels ? "F" : "G", order, name);
    made.setField(tag::OrigClOrdID, orig);
    if (cancels)
        made.setField(tag::OrderQty, show_amount(order.quantity, QTY));
    else
        put_terms(made, order, new_quantity(order), order.price + random.between(-10, 10) * (UNIT / 100));
    ledger.name(order, name);
    order.amendments++;
    requests++;
    send_some_twice(made, order);
}

void Trader::run(long since) {
    long due = within > 0 ? std::min(orders, orders * since / within) : orders;
    while (!stopped && static_cast<long>(ledger.all().size()) < due)
        order();
    if (stopped)
        return;
    for (const auto &order : ledger.all())
        if (!order->done() && order->amendments < AMENDMENTS && random.chance(80))
            amend(*order);
}
