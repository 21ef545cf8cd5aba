// The venue: an acceptor with two sessions for the desk, VENUE (orders) and VENUEDROP (drop copy).
//   venue --dir DIR --port P --seed S [--habits a,b,..]
// SIGUSR2 settles: what waits is decided, what is held is sent. SIGTERM ends it and writes venue.tsv, venue-fills.tsv
// and venue-deeds.tsv.
#include "../common/options.hpp"
#include "../common/signals.hpp"
#include "venue.hpp"
#include <exception>
#include <iostream>
#include <quickfix/FileLog.h>
#include <quickfix/FileStore.h>
#include <quickfix/SocketAcceptor.h>

namespace {
void loop(Venue &venue, Inbox &inbox, const std::string &dir) {
    long told = 0;
    while (!asked_to_end()) {
        Incoming incoming;
        while (inbox.take(incoming))
            venue.take(incoming, milliseconds());
        venue.run(milliseconds());
        if (asked_second())
            venue.settle(milliseconds());
        if (milliseconds() - told >= 200) {
            told = milliseconds();
            write_file(dir + "/venue.progress", venue.progress() + "resent " + std::to_string(inbox.resent()) +
                                                    "\nlogons " + std::to_string(inbox.logons()) + "\n");
        }
        sleep_ms(10);
    }
}

void run(const Options &options) {
    std::string dir = options.text("dir");
    FIX::SessionSettings settings =
        sessions(dir, "venue", {{"VENUE", "GATEWAY"}, {"VENUEDROP", "GATEWAY"}}, true, options.number("port"));
    Venue venue(Habits(options.text("habits", "all")), static_cast<uint64_t>(options.number("seed")));
    Inbox inbox;
    FIX::FileStoreFactory store(settings);
    FIX::FileLogFactory log(settings);
    FIX::SocketAcceptor acceptor(inbox, store, settings, log);
    acceptor.start();
    loop(venue, inbox, dir);
    venue.write_sheets(dir);
    acceptor.stop(true);
}
} // namespace

int main(int argc, char **argv) {
    try {
        catch_signals();
        run(Options(argc, argv, {"dir", "port", "seed", "habits"}));
        return 0;
    } catch (const std::exception &error) {
        std::cerr << "venue: " << error.what() << "\n";
        return 1;
    }
}
