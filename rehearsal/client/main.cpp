// The clients: an initiator with a session COOP1, COOP2, .. for each cooperative.
//   client --dir DIR --port P --seed S --orders N --coops K [--seconds T]
// SIGUSR1 stops new orders and requests. SIGTERM ends it and writes client.tsv.
#include "../common/options.hpp"
#include "../common/sheet.hpp"
#include "../common/signals.hpp"
#include "trader.hpp"
#include <exception>
#include <iostream>
#include <quickfix/FileLog.h>
#include <quickfix/FileStore.h>
#include <quickfix/SocketInitiator.h>

namespace {
std::string progress(const Ledger &ledger, const Trader &trader, Inbox &inbox) {
    return "orders " + std::to_string(ledger.all().size()) + "\nrequests " + std::to_string(trader.requests) +
           "\nreports " + std::to_string(ledger.reports) + "\nrejects " + std::to_string(ledger.rejects) +
           "\nrefused " + std::to_string(ledger.refused) + "\nstrays " + std::to_string(ledger.strays) + "\nagain " +
           std::to_string(ledger.again) + "\nmarked " + std::to_string(trader.again) + "\nresent " +
           std::to_string(inbox.resent()) + "\nfinished " + std::to_string(trader.finished()) + "\n";
}

void loop(Ledger &ledger, Trader &trader, Inbox &inbox, const std::string &dir) {
    long start = milliseconds(), told = 0;
    while (!asked_to_end()) {
        Incoming incoming;
        while (inbox.take(incoming))
            ledger.take(incoming);
        if (asked_first())
            trader.stop();
        trader.run(milliseconds() - start);
        if (milliseconds() - told >= 200) {
            told = milliseconds();
            write_file(dir + "/client.progress", progress(ledger, trader, inbox));
        }
        sleep_ms(10);
    }
    write_file(dir + "/client.progress", progress(ledger, trader, inbox));
}

void run(const Options &options) {
    std::string dir = options.text("dir");
    long coops = options.number("coops");
    std::vector<Line> lines;
    for (long coop = 1; coop <= coops; coop++)
        lines.push_back({"COOP" + std::to_string(coop), "GATEWAY"});
    FIX::SessionSettings settings = sessions(dir, "client", lines, false, options.number("port"));
    Ledger ledger;
    Trader trader(ledger, static_cast<uint64_t>(options.number("seed")), options.number("orders"), coops,
                  options.number("seconds", 10) * 1000);
    Inbox inbox;
    FIX::FileStoreFactory store(settings);
    FIX::FileLogFactory log(settings);
    FIX::SocketInitiator initiator(inbox, store, settings, log);
    initiator.start();
    loop(ledger, trader, inbox, dir);
    ledger.write(dir + "/client.tsv");
    initiator.stop(true);
}
} // namespace

int main(int argc, char **argv) {
    try {
        catch_signals();
        run(Options(argc, argv, {"dir", "port", "seed", "orders", "coops", "seconds"}));
        return 0;
    } catch (const std::exception &error) {
        std::cerr << "client: " << error.what() << "\n";
        return 1;
    }
}
