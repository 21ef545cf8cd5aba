// How the venue's reports leave: on the order session and, as copies under the same ExecID, on the drop copy; some
// late, some twice.
#pragma once
#include "../common/random.hpp"
#include "deeds.hpp"
#include "habits.hpp"
#include "report.hpp"
#include <list>

class Post {
  public:
    Post(const Habits &habits, Deeds &deeds, uint64_t seed) : habits(habits), deeds(deeds), random(seed) {}
    void report(Order &order, const Report &report, long now);
    // A report of an order that nobody knows: no order, and no habit but the drop copy's.
    void stray(const Report &report);
    // A cancel reject: on the order session alone, behind every report of that order that is still held.
    void reject(const Order &order, FIX::Message reject);
    // Sends what is due.
    void run(long now);
    // Sends all that is held.
    void release();
    size_t held() const { return waiting.size(); }
    long sent = 0;

  private:
    struct Held {
        long due;
        std::string order_id;
        Line line;
        FIX::Message message;
    };
    const Habits &habits;
    Deeds &deeds;
    Random random;
    std::list<Held> waiting;
    void on(const Line &line, Order &order, const Report &report, long now);
    void send_now(FIX::Message message, const Line &line);
};
