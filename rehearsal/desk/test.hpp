// What the desk's tests share: a check that counts, FIX messages from short texts, sessions without a network, and a process
// that is cut at a chosen point.
#ifndef REHEARSAL_TEST_HPP
#define REHEARSAL_TEST_HPP

#include <functional>
#include <map>
#include <string>
#include <vector>

#include "desk.hpp"

namespace test {

// Fails the run, with the place, if `holds` is false.
void check(bool holds, const char *what, const char *file, int line);
// How many checks were made, and how many failed.
int made();
int failed();

#define CHECK(condition) test::check((condition), #condition, __FILE__, __LINE__)

// A message of the fields in "35=D|11=C1|..".
FIX::Message fix(const std::string &fields);

// A limit order of 100 WHEATH27 at 10.25, with more fields behind it.
FIX::Message order(const std::string &cl_ord_id, const std::string &more = "");
// A cancel or replace of `orig`.
FIX::Message cancel(const std::string &cl_ord_id, const std::string &orig, const std::string &more = "");
FIX::Message replace(const std::string &cl_ord_id, const std::string &orig, int quantity);
// A venue's report of an order: ExecType and OrdStatus, LastQty and CumQty, at 10.
FIX::Message report(const std::string &clordid, const std::string &types, int last, int cum, const std::string &more = "");

// A message as it was sent: its session and its fields, `|` for byte 1, without length, time and checksum.
struct Sent {
    std::string session, text;
    // The value of a tag, empty if it is absent.
    std::string at(int tag) const;
};

enum class Cut { NEVER, BEFORE_SENDING, AFTER_SENDING };

// Sessions that keep what is sent, in a file too, so that it outlives a process that is cut.
class Wire : public desk::Sessions {
public:
    explicit Wire(const std::string &file = "") : file_(file) {}
    bool up(const std::string &session) override { return !down[session]; }
    void send(FIX::Message &message, const std::string &session) override;

    std::vector<Sent> to(const std::string &session) const;

    std::map<std::string, bool> down;
    Cut cut = Cut::NEVER;
    std::vector<Sent> sent;

private:
    std::string file_;
};

// What was sent according to a wire's file.
std::vector<Sent> read_sent(const std::string &file);

// A fresh directory below the test's own.
std::string fresh_dir();

// A desk in a directory with its wire: taking is as from a session.
struct Running {
    explicit Running(const std::string &dir, desk::Fault fault = desk::Fault::NONE, bool cancel_on_drop = false);
    void client(const FIX::Message &message) { desk.take(message, "COOP1"); }
    void venue(const FIX::Message &message) { desk.take(message, "VENUE"); }

    Wire wire;
    desk::Desk desk;
};

// Runs a step in a process of its own that must end by `_exit(CUT)`, as a cut does.
const int CUT = 7;
void cut_in(const std::function<void()> &step);

// The parts of the test.
void records();
void turning();
void routing();
void refusals();
void cuts();
void waiting();
void sheets();
void old_way();
void faults();

} // namespace test

#endif
