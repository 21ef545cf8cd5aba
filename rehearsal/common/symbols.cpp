// The symbols and their base prices.
#include "symbols.hpp"

const std::vector<std::string> &symbols() {
    static const std::vector<std::string> names = {"WHEATH27", "MAIZEK27", "SOYAN27", "COFFEEU27"};
    return names;
}

long base_price(const std::string &symbol) {
    long sum = 0;
    for (char c : symbol)
        sum += c;
    return 5000 + sum % 97 * 100;
}
