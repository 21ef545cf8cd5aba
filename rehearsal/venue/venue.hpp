// The venue: its own orders, its fills, and what it says of them. Its sheet is the truth of a run: a fill happens once,
// and every quantity in its reports is its own at that time.
#pragma once
#include "market.hpp"
#include "post.hpp"
#include <map>
#include <memory>

class Venue {
  public:
    Venue(const Habits &habits, uint64_t seed);
    // A message of the desk's.
    void take(const Incoming &incoming, long now);
    // Some time passes: requests are decided, orders trade, reports leave.
    void run(long now);
    // Decides what waits, ends or leaves each order as the market has it, sends all that is held, states what was told
    // out of order.
    void settle(long now);
    void write_sheets(const std::string &dir) const;
    std::string progress() const;

  private:
    struct Fill {
        std::string order_id, clordid, exec_id;
        long quantity, price;
    };
    Habits habits;
    Deeds deeds;
    Random random;
    Market market;
    Post post;
    std::vector<std::unique_ptr<Order>> orders;
    std::map<std::string, Order *> by_name; // every ClOrdID that an order or a request came with
    std::vector<Fill> fills;
    long exec_ids = 0, strays = 0;
    bool settled = false;

    // taking.cpp: what comes in.
    void take_order(const FIX::Message &message, bool marked, long now);
    void take_request(const FIX::Message &message, char kind, bool marked, long now);
    // deciding.cpp: cancels and replaces.
    void decide_due(Order &order, long now);
    void decide(Order &order, const Request &request, long now);
    bool refuses(Order &order, const Request &request, long now);
    void refuse(Order &order, const Request &request, const std::string &reason, const std::string &text, long now);
    void cancel(Order &order, const Request &request, long now);
    void replace(Order &order, const Request &request, long now);
    // trading.cpp: fills and what else happens to an order by itself.
    void trade(Order &order, long now);
    void fill(Order &order, long quantity, long now);
    std::string name_in_fill(Order &order);
    void note_crossings(const Order &order);
    void befall(Order &order, long now);
    void state(Order &order, long now);
    void finish(Order &order, char status, long now);
    void stray();
    std::string exec_id() { return "V" + std::to_string(++exec_ids); }
};
