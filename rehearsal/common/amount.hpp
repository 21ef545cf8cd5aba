// Quantities are whole counts of 1/10,000 and prices of 10^-8, as in the book (docs/SCOPE.md); here they are read from
// FIX text and shown.
#pragma once
#include <string>

const int QTY = 4, PRICE = 8;
const long LOT = 10000, UNIT = 100000000;

long parse_amount(const std::string &text, int decimals);
std::string show_amount(long count, int decimals);
