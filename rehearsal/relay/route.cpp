// Listening, connecting and cutting.
#include "route.hpp"
#include <cstdio>
#include <netinet/in.h>
#include <netinet/tcp.h>
#include <stdexcept>
#include <sys/socket.h>
#include <unistd.h>

namespace {
sockaddr_in loopback(long port) {
    sockaddr_in address = {};
    address.sin_family = AF_INET;
    address.sin_port = htons(static_cast<uint16_t>(port));
    address.sin_addr.s_addr = htonl(INADDR_LOOPBACK);
    return address;
}

void set_on(int socket, int level, int option) {
    int on = 1;
    setsockopt(socket, level, option, &on, sizeof on);
}

bool can_read(int socket) {
    pollfd asked = {socket, POLLIN, 0};
    return poll(&asked, 1, 0) == 1;
}
} // namespace

Route::Route(const std::string &map, uint64_t seed) : seed(seed) {
    long listen_port = 0;
    if (std::sscanf(map.c_str(), "%ld:%ld:%ld:%ld", &listen_port, &connect_port, &least, &most) != 4 || least > most)
        throw std::runtime_error("no map LISTEN:CONNECT:MINMS:MAXMS: " + map);
    listener = socket(AF_INET, SOCK_STREAM, 0);
    set_on(listener, SOL_SOCKET, SO_REUSEADDR);
    sockaddr_in address = loopback(listen_port);
    if (bind(listener, reinterpret_cast<sockaddr *>(&address), sizeof address) != 0 || listen(listener, 16) != 0)
        throw std::runtime_error("cannot listen: " + map);
}

void Route::ask(std::vector<pollfd> &asked) const {
    asked.push_back({listener, POLLIN, 0});
    for (const Pair &pair : pairs)
        for (const Lane *lane : {&pair.there, &pair.back})
            if (lane->reading())
                asked.push_back({lane->source(), POLLIN, 0});
}

void Route::accept_one() {
    int near = accept(listener, nullptr, nullptr);
    if (near < 0)
        return;
    int far = socket(AF_INET, SOCK_STREAM, 0);
    sockaddr_in address = loopback(connect_port);
    if (connect(far, reinterpret_cast<sockaddr *>(&address), sizeof address) != 0) {
        close(near);
        close(far);
        return;
    }
    set_on(near, IPPROTO_TCP, TCP_NODELAY);
    set_on(far, IPPROTO_TCP, TCP_NODELAY);
    uint64_t own = seed + 2 * count++;
    pairs.push_back({near, far, Lane(near, far, own, least, most), Lane(far, near, own + 1, least, most)});
}

void Route::run(long now) {
    if (can_read(listener))
        accept_one();
    for (auto pair = pairs.begin(); pair != pairs.end();) {
        for (Lane *lane : {&pair->there, &pair->back})
            if (lane->reading() && can_read(lane->source()))
                lane->read(now);
        bool there = pair->there.write(now), back = pair->back.write(now);
        if (there && back) {
            ++pair;
            continue;
        }
        close_pair(*pair);
        pair = pairs.erase(pair);
    }
}

void Route::close_pair(Pair &pair) {
    close(pair.near);
    close(pair.far);
}

size_t Route::cut() {
    size_t ended = pairs.size();
    for (Pair &pair : pairs)
        close_pair(pair);
    pairs.clear();
    return ended;
}

long Route::due() const {
    long first = -1;
    for (const Pair &pair : pairs)
        for (const Lane *lane : {&pair.there, &pair.back})
            if (lane->due() >= 0 && (first < 0 || lane->due() < first))
                first = lane->due();
    return first;
}
