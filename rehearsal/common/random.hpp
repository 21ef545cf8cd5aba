// A seeded generator (splitmix64) whose numbers are the same wherever the rehearsal is built, unlike the standard
// library's distributions.
#pragma once
#include <cstdint>

class Random {
  public:
    explicit Random(uint64_t seed) : state(seed) {}

    uint64_t next() {
        uint64_t z = (state += 0x9e3779b97f4a7c15u);
        z = (z ^ (z >> 30)) * 0xbf58476d1ce4e5b9u;
        z = (z ^ (z >> 27)) * 0x94d049bb133111ebu;
        return z ^ (z >> 31);
    }

    // A number from low to high, both included.
    long between(long low, long high) {
        return low + static_cast<long>(next() % static_cast<uint64_t>(high - low + 1));
    }

    // True in so many cases of ten thousand.
    bool chance(long of_ten_thousand) { return between(0, 9999) < of_ten_thousand; }

  private:
    uint64_t state;
};
