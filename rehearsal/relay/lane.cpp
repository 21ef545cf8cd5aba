// Holding and passing on the bytes of one direction.
#include "lane.hpp"
#include <algorithm>
#include <cerrno>
#include <sys/socket.h>

Lane::Lane(int from, int to, uint64_t seed, long least, long most)
    : from(from), to(to), random(seed), least(least), most(most) {}

void Lane::read(long now) {
    char bytes[65536];
    ssize_t count = ::recv(from, bytes, sizeof bytes, MSG_DONTWAIT);
    if (count < 0 && (errno == EAGAIN || errno == EINTR))
        return;
    ended = count <= 0;
    last = std::max(last, now + random.between(least, most));
    held.push_back({last, ended ? std::string() : std::string(bytes, static_cast<size_t>(count))});
}

bool Lane::write(long now) {
    while (!held.empty() && held.front().due <= now) {
        Chunk &chunk = held.front();
        if (chunk.bytes.empty())
            return false;
        ssize_t count = ::send(to, chunk.bytes.data(), chunk.bytes.size(), MSG_DONTWAIT | MSG_NOSIGNAL);
        if (count < 0 && (errno == EAGAIN || errno == EINTR))
            return true;
        if (count < 0)
            count = static_cast<ssize_t>(chunk.bytes.size()); // the receiver is gone: lost, as on the wire
        chunk.bytes.erase(0, static_cast<size_t>(count));
        if (!chunk.bytes.empty())
            return true;
        held.pop_front();
    }
    return true;
}

long Lane::due() const { return held.empty() ? -1 : held.front().due; }
