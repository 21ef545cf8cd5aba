// Decimal text to counts and back, exactly.
#include "amount.hpp"
#include <stdexcept>

long parse_amount(const std::string &text, int decimals) {
    long value = 0;
    int behind = -1; // digits behind the point so far; -1 before the point
    for (char c : text) {
        if (c == '.' && behind < 0) {
            behind = 0;
            continue;
        }
        if (c < '0' || c > '9')
            throw std::runtime_error("no amount: " + text);
        if (behind >= decimals) {
            if (c != '0')
                throw std::runtime_error("too many decimals: " + text);
            continue;
        }
        value = value * 10 + (c - '0');
        behind += behind >= 0;
    }
    for (int i = behind < 0 ? 0 : behind; i < decimals; i++)
        value *= 10;
    return value;
}

std::string show_amount(long count, int decimals) {
    std::string digits = std::to_string(count);
    while (digits.size() <= static_cast<size_t>(decimals))
        digits.insert(0, "0");
    return digits.insert(digits.size() - static_cast<size_t>(decimals), ".");
}
