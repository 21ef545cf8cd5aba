// The market's walk.
#include "market.hpp"
#include "../common/amount.hpp"
#include "../common/symbols.hpp"

void Market::move() {
    for (auto &tick : ticks) {
        long pull = tick.second > 0 ? -1 : 1;
        tick.second += random.between(-6, 6) + (random.chance(3000) ? pull : 0);
    }
}

long Market::price(const std::string &symbol) { return (base_price(symbol) + ticks[symbol]) * (UNIT / 100); }

bool Market::reaches(const std::string &symbol, char side, long limit) {
    if (limit == 0)
        return true;
    return side == '1' ? price(symbol) <= limit : price(symbol) >= limit;
}
