// Signals as flags, and the clock.
#include "signals.hpp"
#include <chrono>
#include <csignal>
#include <thread>

namespace {
volatile std::sig_atomic_t ended = 0, first = 0, second = 0, third = 0;
void note_end(int) { ended = 1; }
void note_first(int) { first = 1; }
void note_second(int) { second = 1; }
void note_third(int) { third = 1; }

bool take(volatile std::sig_atomic_t &flag) {
    bool was = flag != 0;
    flag = 0;
    return was;
}
} // namespace

void catch_signals() {
    std::signal(SIGTERM, note_end);
    std::signal(SIGINT, note_end);
    std::signal(SIGUSR1, note_first);
    std::signal(SIGUSR2, note_second);
    std::signal(SIGHUP, note_third);
    std::signal(SIGPIPE, SIG_IGN);
}

bool asked_to_end() { return ended != 0; }

bool asked_first() { return take(first); }
bool asked_second() { return take(second); }
bool asked_third() { return take(third); }

long milliseconds() {
    using namespace std::chrono;
    return static_cast<long>(duration_cast<std::chrono::milliseconds>(steady_clock::now().time_since_epoch()).count());
}

void sleep_ms(long ms) { std::this_thread::sleep_for(std::chrono::milliseconds(ms)); }
