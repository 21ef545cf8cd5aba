// What the cooperatives ordered and what they were told of it: each report once, by its ExecID.
#pragma once
#include "../common/wire.hpp"
#include <map>
#include <memory>
#include <set>
#include <vector>

struct ClientOrder {
    long coop = 0;
    std::string first, accepted, symbol; // the ClOrdID that it began with, and that of the replace accepted last
    std::vector<std::string> names;      // every ClOrdID used for it
    char side = '1', type = '2', status = 'A';
    long quantity = 0, price = 0;
    std::map<std::string, long> told; // LastQty by ExecID
    long told_cum = 0, conflicts = 0, amendments = 0;
    bool rejected = false;

    bool done() const { return status == '2' || status == '4' || status == 'C' || status == '8'; }
    long told_last() const;
};

class Ledger {
  public:
    ClientOrder &add(long coop, const std::string &name);
    void name(ClientOrder &order, const std::string &name);
    // An ExecutionReport, OrderCancelReject or BusinessMessageReject.
    void take(const Incoming &incoming);
    void write(const std::string &path) const;
    const std::vector<std::unique_ptr<ClientOrder>> &all() const { return orders; }
    long reports = 0, rejects = 0, refused = 0, strays = 0, again = 0;

  private:
    std::vector<std::unique_ptr<ClientOrder>> orders;
    std::map<std::pair<long, std::string>, ClientOrder *> by_name;
    ClientOrder *find(long coop, const FIX::Message &message);
    void report(ClientOrder &order, const FIX::Message &message);
};
