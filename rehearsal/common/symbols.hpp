// The contracts that are traded, and the price about which each one's market wanders.
#pragma once
#include <string>
#include <vector>

const std::vector<std::string> &symbols();
long base_price(const std::string &symbol); // in hundredths
