// The networks: passes on what comes to each LISTEN port to its CONNECT port on loopback, each direction's bytes
// delayed by chunk.
//   relay --seed S --map LISTEN:CONNECT:MINMS:MAXMS [--map ..]
// SIGUSR1 cuts every connection of the first map, SIGUSR2 those of the second, SIGHUP those of the third.
#include "../common/options.hpp"
#include "../common/signals.hpp"
#include "route.hpp"
#include <algorithm>
#include <exception>
#include <iostream>

namespace {
int wait_ms(const std::vector<Route> &routes, long now) {
    long wait = 100;
    for (const Route &route : routes)
        if (route.due() >= 0)
            wait = std::min(wait, std::max(0L, route.due() - now));
    return static_cast<int>(wait);
}

void run(std::vector<Route> &routes) {
    while (!asked_to_end()) {
        std::vector<pollfd> asked;
        for (const Route &route : routes)
            route.ask(asked);
        poll(asked.data(), asked.size(), wait_ms(routes, milliseconds()));
        const bool cuts[] = {asked_first(), asked_second(), asked_third()};
        for (size_t i = 0; i < routes.size() && i < 3; i++)
            if (cuts[i])
                std::cout << "cut " << i + 1 << ": " << routes[i].cut() << " connections" << std::endl;
        for (Route &route : routes)
            route.run(milliseconds());
    }
}
} // namespace

int main(int argc, char **argv) {
    try {
        Options options(argc, argv, {"seed", "map"});
        Random seeds(static_cast<uint64_t>(options.number("seed")));
        catch_signals();
        std::vector<Route> routes;
        for (const std::string &map : options.all("map"))
            routes.emplace_back(map, seeds.next());
        run(routes);
        return 0;
    } catch (const std::exception &error) {
        std::cerr << "relay: " << error.what() << "\n";
        return 1;
    }
}
