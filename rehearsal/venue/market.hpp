// A random market: one price for each symbol, which wanders about its base.
#pragma once
#include "../common/random.hpp"
#include <map>
#include <string>

class Market {
  public:
    explicit Market(uint64_t seed) : random(seed) {}
    void move();
    // Whether an order with this side and limit trades at the price as it is; a limit of 0 is none.
    bool reaches(const std::string &symbol, char side, long limit);
    long price(const std::string &symbol);

  private:
    Random random;
    std::map<std::string, long> ticks; // hundredths above or below the base
};
