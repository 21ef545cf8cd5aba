// What the venue keeps of an order, and of a request that it has not decided yet.
#pragma once
#include <string>
#include <vector>

struct Request {
    char kind; // F cancel, G replace
    std::string clordid, orig;
    long quantity, price; // of a replace
    long due;             // when it is decided
};

struct Order {
    std::string id;       // the venue's OrderID
    std::string first;    // the ClOrdID that it came with
    std::string current;  // that of the replace accepted last, else the first
    std::string replaced; // the one before the current, if any
    std::string refused;  // that of the cancel refused last, if any
    std::string symbol;
    char side = '1', type = '2', status = '0';
    long quantity = 0, price = 0, filled = 0;
    __int128 notional = 0;   // sum of quantity times price of its fills
    long resumes = -1;       // when an order that is done for the day goes on
    bool disordered = false; // one of its reports was sent after a younger one
    std::vector<Request> waiting;

    bool done() const { return status == '2' || status == '4' || status == 'C' || status == '8'; }
    bool whole() const { return filled == quantity; }
    char live_status() const { return whole() ? '2' : filled > 0 ? '1' : '0'; }
    long leaves() const { return done() || status == '3' ? 0 : quantity - filled; }
    // The average price in counts of 10^-8, rounded.
    long average() const { return filled == 0 ? 0 : static_cast<long>((notional + filled / 2) / filled); }
};
