// The desk cut at each point of a message's way, and started again; the old way; the planted faults.
#include <fstream>
#include <numeric>
#include <unistd.h>

#include "old_way.hpp"
#include "test.hpp"

using desk::Fault;

namespace test {

namespace {

// Each message of a short day, the session that it comes from, the session that its answer goes to and how it is named
// there: a request's ClOrdID or a report's ExecID.
struct Step {
    FIX::Message message;
    std::string from, to;
    int tag;
    std::string name;
};

std::vector<Step> short_day() {
    return {{order("C1"), "COOP1", "VENUE", 11, "G1"},
            {report("G1", "00", 0, 0), "VENUE", "COOP1", 17, "G1.1"},
            {replace("C2", "C1", 120), "COOP1", "VENUE", 11, "G1-1"},
            {report("G1-1", "50", 0, 0), "VENUE", "COOP1", 17, "G1.2"},
            {report("G1", "F1", 40, 40), "VENUE", "COOP1", 17, "G1.3"},
            {cancel("C3", "C2"), "COOP1", "VENUE", 11, "G1-2"},
            {cancel("C3", "C2"), "COOP1", "COOP1", 11, "C3"}};
}

// The day up to a step, at which the process is cut.
void run_to(const std::string &dir, size_t last, Cut cut) {
    const std::vector<Step> day = short_day();
    cut_in([&] {
        Running running(dir);
        for (size_t n = 0; n < last; n++) running.desk.take(day[n].message, day[n].from);
        running.wire.cut = cut;
        running.desk.take(day[last].message, day[last].from);
        _exit(CUT); // the message is taken, and QuickFIX has not stored its number
    });
}

std::string without_mark(std::string text) {
    const size_t at = text.find("|97=Y");
    return at == std::string::npos ? text : text.erase(at, 5);
}

// Cut between commit and sending, or between sending and noting: the message goes again under its name, marked, and it is
// the same; nothing else goes.
void cut_at_sending(size_t last, Cut cut) {
    const std::string dir = fresh_dir();
    run_to(dir, last, cut);
    const Step step = short_day()[last];
    const std::vector<Sent> before = read_sent(dir + "/sent");
    CHECK(before.size() == last + (cut == Cut::AFTER_SENDING));
    Running again(dir);
    CHECK(again.wire.sent.empty() && again.desk.outbox().waiting().size() == 1);
    again.desk.logged_on(step.to);
    CHECK(again.wire.sent.size() == 1 && again.wire.sent[0].session == step.to);
    CHECK(again.wire.sent[0].at(step.tag) == step.name && again.wire.sent[0].at(97) == "Y");
    if (cut == Cut::AFTER_SENDING) CHECK(without_mark(again.wire.sent[0].text) == without_mark(before.back().text));
    CHECK(again.desk.outbox().waiting().empty() && again.desk.journal().waiting().empty());
    CHECK(Running(dir).desk.outbox().waiting().empty());
}

// Cut after the message was taken and noted, before QuickFIX stores its number: it comes again with PossDupFlag. No order is
// booked twice, no request goes twice and no fill is told twice.
void cut_before_number(size_t last) {
    const std::string dir = fresh_dir();
    run_to(dir, last, Cut::NEVER);
    Running again(dir);
    CHECK(again.desk.outbox().waiting().empty());
    const desk::Order before = again.desk.books().orders(0)[0];
    FIX::Message message = short_day()[last].message;
    message.getHeader().setField(43, "Y");
    again.desk.take(message, short_day()[last].from);
    const std::vector<desk::Order> orders = again.desk.books().orders(0);
    CHECK(orders.size() == 1 && orders[0].cum == before.cum && orders[0].status == before.status);
    CHECK(again.wire.to("VENUE").empty());
    for (const Sent &told : again.wire.to("COOP1")) CHECK(told.at(32) == "0.0000");
}

// An answer that is not the kept one stops the desk.
void answers_otherwise() {
    const std::string dir = fresh_dir();
    Running(dir).client(order("C1"));
    {
        desk::Journal journal(dir + "/journal.sqlite", false);
        journal.begin();
        journal.put_event(0, "no record", 0, std::string("\5\0\0\0\0", 5));
        journal.commit();
    }
    bool stopped = false;
    try {
        Running again(dir);
    } catch (const std::runtime_error &why) {
        stopped = std::string(why.what()) == "the library answers otherwise to event 3";
    }
    CHECK(stopped);
}

// The sum of a quantity's tag over messages of one type.
int sum(const std::vector<Sent> &messages, const std::string &type, int tag) {
    return std::accumulate(messages.begin(), messages.end(), 0, [&](int total, const Sent &one) {
        return total + (one.at(35) == type ? std::stoi("0" + one.at(tag)) : 0);
    });
}

// The incident: an order of 100, replaced to 120; the venue fills it under the replaced ClOrdID and calls it filled under the
// new one.
void incident(desk::Taker &desk) {
    desk.take(order("C1"), "COOP1");
    desk.take(report("G1", "00", 0, 0), "VENUE");
    desk.take(replace("C2", "C1", 120), "COOP1");
    desk.take(report("G1-1", "50", 0, 0), "VENUE");
    desk.take(report("G1", "F1", 60, 60), "VENUE");
    desk.take(report("G1", "F1", 60, 120), "VENUE");
    desk.take(report("G1-1", "I2", 0, 120), "VENUE");
}

} // namespace

void cuts() {
    for (size_t last = 0; last + 1 < short_day().size(); last++) {
        cut_at_sending(last, Cut::BEFORE_SENDING);
        cut_at_sending(last, Cut::AFTER_SENDING);
        cut_before_number(last);
    }
    cut_at_sending(short_day().size() - 1, Cut::BEFORE_SENDING); // a cancel reject: the ClOrdID is a duplicate
    cut_at_sending(short_day().size() - 1, Cut::AFTER_SENDING);
    answers_otherwise();
}

// The old way orders 120 at the venue again; the book orders once, and the client is told of 120.
void old_way() {
    Wire wire;
    desk::OldWay old(fresh_dir(), wire);
    incident(old);
    CHECK(sum(wire.to("VENUE"), "D", 38) == 100 + 120);
    CHECK(wire.to("VENUE").back().at(11) == "G2" && wire.to("VENUE").back().at(38) == "120.0000");
    Wire calm; // without the incident it is right: a Filled that is short, a report twice, the drop copy
    desk::OldWay right(fresh_dir(), calm);
    right.take(order("C1"), "COOP1");
    right.take(report("G1", "F2", 60, 60, "|151=40"), "VENUE");
    right.take(report("G1", "F2", 40, 100, "|151=0"), "VENUEDROP");
    right.take(report("G1", "F2", 40, 100, "|151=0"), "VENUE");
    right.take(report("G1", "F2", 40, 100, "|151=0"), "VENUE");
    CHECK(calm.to("VENUE").size() == 1 && sum(calm.to("COOP1"), "8", 32) == 100);
    Running book(fresh_dir());
    incident(book.desk);
    CHECK(sum(book.wire.to("VENUE"), "D", 38) == 100);
    CHECK(sum(book.wire.to("COOP1"), "8", 32) == 120);
    CHECK(book.desk.books().orders(0)[0].cum == 1200000 && book.desk.books().orders(0)[0].status == '2');
}

// Each fault shows, and nothing of it without the fault.
void faults() {
    for (const Fault fault : {Fault::NONE, Fault::DROP_REPORT}) {
        const std::string dir = fresh_dir();
        run_to(dir, 4, Cut::BEFORE_SENDING);
        Running again(dir, fault);
        again.desk.logged_on("COOP1");
        CHECK(sum(again.wire.to("COOP1"), "8", 32) == (fault == Fault::NONE ? 40 : 0));
        CHECK(again.desk.outbox().waiting().empty());
    }
    for (const Fault fault : {Fault::NONE, Fault::SEND_TWICE}) {
        Running day(fresh_dir(), fault);
        day.client(order("C1"));
        day.client(order("C2"));
        const std::vector<Sent> out = day.wire.to("VENUE");
        CHECK(out.size() == (fault == Fault::NONE ? 2u : 3u));
        CHECK(out[1].at(11) == (fault == Fault::NONE ? "G2" : "G1-99"));
    }
    for (const Fault fault : {Fault::NONE, Fault::LAST_QTY}) {
        Running day(fresh_dir(), fault);
        day.client(order("C1"));
        day.venue(report("G1", "F1", 10, 40)); // the report of the first 30 is late
        day.venue(report("G1", "F1", 30, 30));
        CHECK(sum(day.wire.to("COOP1"), "8", 32) == (fault == Fault::NONE ? 40 : 10));
        CHECK(sum(day.wire.to("COOP1"), "8", 14) == 40);
    }
}

} // namespace test
