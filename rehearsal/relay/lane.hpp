// One direction of one connection: bytes are read in chunks, each is held for a seeded time, and they leave in the
// order in which they came.
#pragma once
#include "../common/random.hpp"
#include <deque>
#include <string>

class Lane {
  public:
    Lane(int from, int to, uint64_t seed, long least, long most);
    // Reads what has come; at the end of the stream the end is passed on too, after what is still held.
    void read(long now);
    // Writes what is due. False once the end is reached; what a receiver that is gone cannot take is lost.
    bool write(long now);
    // When the next chunk is due, -1 if none is held.
    long due() const;
    bool reading() const { return !ended; }
    int source() const { return from; }

  private:
    struct Chunk {
        long due;
        std::string bytes; // empty: the end
    };
    int from, to;
    Random random;
    long least, most, last = 0;
    bool ended = false;
    std::deque<Chunk> held;
};
