// The cooperatives' traders: orders spread over the run, and cancels and replaces of those that are not known to be
// done.
#pragma once
#include "../common/random.hpp"
#include "ledger.hpp"

class Trader {
  public:
    // `orders` orders of `coops` cooperatives within so many milliseconds.
    Trader(Ledger &ledger, uint64_t seed, long orders, long coops, long within);
    // Sends what is due, `since` milliseconds after the start.
    void run(long since);
    void stop() { stopped = true; }
    bool finished() const { return stopped || static_cast<long>(ledger.all().size()) >= orders; }
    long requests = 0, again = 0;

  private:
    Ledger &ledger;
    Random random;
    long orders, coops, within, number = 0;
    bool stopped = false;
    std::string next_name();
    void order();
    void amend(ClientOrder &order);
    void send_some_twice(FIX::Message &made, const ClientOrder &order);
    long new_quantity(const ClientOrder &order);
};
