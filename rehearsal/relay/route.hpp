// One map LISTEN:CONNECT:MINMS:MAXMS: a listening port, and the connections that came by it.
#pragma once
#include "lane.hpp"
#include <list>
#include <poll.h>
#include <string>
#include <vector>

class Route {
  public:
    // Throws if the text is no map or the port is taken.
    Route(const std::string &map, uint64_t seed);
    void ask(std::vector<pollfd> &asked) const;
    // Takes new connections, moves bytes, and lets go of connections that have ended.
    void run(long now);
    // Ends every connection at once; what is held is lost, as on a wire that is cut.
    size_t cut();
    // The earliest time at which a chunk is due, -1 if none is held.
    long due() const;

  private:
    struct Pair {
        int near, far;
        Lane there, back;
    };
    int listener = -1;
    long connect_port = 0, least = 0, most = 0;
    uint64_t seed, count = 0;
    std::list<Pair> pairs;
    void accept_one();
    static void close_pair(Pair &pair);
};
