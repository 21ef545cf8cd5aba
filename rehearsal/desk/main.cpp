// The desk process: arguments, sessions, and its end by SIGTERM, at which it writes its sheets.
#include <csignal>
#include <cstdio>
#include <cstdlib>
#include <memory>
#include <pthread.h>

#include <quickfix/FileLog.h>
#include <quickfix/FileStore.h>
#include <quickfix/SocketAcceptor.h>
#include <quickfix/SocketInitiator.h>

#include "application.hpp"
#include "old_way.hpp"

namespace {

const char USAGE[] =
    "desk --dir DIR --client-port PC --venue-port PV --drop-port PD --coops K\n"
    "     [--old-way] [--fault drop-report|send-twice|last-qty|unknown-status] [--cancel-on-drop] [--no-sync]\n"
    "  --old-way         books by the ClOrdID as it comes, without a journal: the desk that doubles a hedge\n"
    "  --fault NAME      a planted fault, to be found by the comparison with the venue's sheet\n"
    "  --cancel-on-drop  the gateway cancels a client's orders when its session drops\n"
    "  --no-sync         commits are left to the operating system: SIGKILL loses nothing, a power cut may\n";

struct Arguments {
    desk::Options options;
    int client_port = 0, venue_port = 0, drop_port = 0, coops = 0;
    bool old_way = false;
};

[[noreturn]] void misused(const std::string &why) {
    fprintf(stderr, "desk: %s\n%s", why.c_str(), USAGE);
    exit(2);
}

int number(const std::string &text, const std::string &name) {
    char *end = nullptr;
    const long value = strtol(text.c_str(), &end, 10);
    if (text.empty() || *end || value < 1 || value > 65535) misused(name + " takes a number of 1 to 65535");
    return int(value);
}

desk::Fault fault(const std::string &name) {
    if (name == "drop-report") return desk::Fault::DROP_REPORT;
    if (name == "send-twice") return desk::Fault::SEND_TWICE;
    if (name == "last-qty") return desk::Fault::LAST_QTY;
    if (name == "unknown-status") return desk::Fault::UNKNOWN_STATUS;
    misused("no fault is named " + name);
}

// Takes a switch that has a value; false if it is none.
bool take_valued(Arguments &to, const std::string &name, const std::string &value) {
    if (name == "--dir") to.options.dir = value;
    else if (name == "--client-port") to.client_port = number(value, name);
    else if (name == "--venue-port") to.venue_port = number(value, name);
    else if (name == "--drop-port") to.drop_port = number(value, name);
    else if (name == "--coops") to.coops = number(value, name);
    else if (name == "--fault") to.options.fault = fault(value);
    else return false;
    return true;
}

Arguments read_arguments(int count, char **words) {
    Arguments to;
    for (int at = 1; at < count; at++) {
        const std::string name = words[at];
        if (name == "--old-way") to.old_way = true;
        else if (name == "--cancel-on-drop") to.options.cancel_on_drop = true;
        else if (name == "--no-sync") to.options.sync = false;
        else if (at + 1 == count || !take_valued(to, name, words[++at])) misused("what is " + name + "?");
    }
    if (to.options.dir.empty() || !to.client_port || !to.venue_port || !to.drop_port || !to.coops)
        misused("--dir, the three ports and --coops are needed");
    return to;
}

// Serves until SIGTERM or SIGINT, which are blocked in all threads.
void serve(const Arguments &arguments, const sigset_t &ends) {
    desk::Application application;
    std::unique_ptr<desk::Taker> taker;
    if (arguments.old_way) taker.reset(new desk::OldWay(arguments.options.dir, application));
    else taker.reset(new desk::Desk(arguments.options, application));
    application.serve(*taker);

    const FIX::SessionSettings in =
        desk::acceptor_settings(arguments.options.dir, arguments.client_port, arguments.coops);
    const FIX::SessionSettings out =
        desk::initiator_settings(arguments.options.dir, arguments.venue_port, arguments.drop_port);
    FIX::FileStoreFactory in_store(in), out_store(out);
    FIX::FileLogFactory in_log(in), out_log(out);
    FIX::SocketAcceptor acceptor(application, in_store, in, in_log);
    FIX::SocketInitiator initiator(application, out_store, out, out_log);
    initiator.start();
    acceptor.start();

    int signal = 0;
    sigwait(&ends, &signal);
    application.close();
    initiator.stop();
    acceptor.stop();
    taker->write_sheets();
}

} // namespace

int main(int count, char **words) {
    const Arguments arguments = read_arguments(count, words);
    sigset_t ends;
    sigemptyset(&ends);
    sigaddset(&ends, SIGTERM);
    sigaddset(&ends, SIGINT);
    pthread_sigmask(SIG_BLOCK, &ends, nullptr);
    std::signal(SIGPIPE, SIG_IGN);
    try {
        serve(arguments, ends);
    } catch (const std::exception &why) {
        fprintf(stderr, "desk: %s\n", why.what());
        return 1;
    }
    return 0;
}
