// The desk's tests, without a network: `desk-test` runs all of them and ends with status 1 if a check fails.
#include "test.hpp"

#include <cstdio>
#include <cstring>
#include <fstream>
#include <sstream>

using desk::Books;
using desk::Record;

namespace test {

namespace {

bool turned_away(const std::function<Record()> &turn, int tag) {
    try {
        turn();
    } catch (const desk::TurnedAway &why) {
        return why.tag == tag;
    }
    return false;
}

std::string file(const std::string &path) {
    std::stringstream text;
    text << std::ifstream(path).rdbuf();
    return text.str();
}

} // namespace

// A list with each kind of event, each built here and taken by the book, and read back as it was built.
void records() {
    Books books;
    const auto takes = [&](const Record &event, size_t messages) {
        const desk::Answer answer = books.take(0, event.bytes());
        CHECK(answer.refusal == JUBAFIYE_TAKEN);
        CHECK(answer.messages().size() == messages);
        CHECK(Record::read(event.bytes()).bytes() == event.bytes());
    };
    takes(desk::booking(order("C1", "|59=1"), 1, "G1"), 0);
    takes(desk::send_again("G1"), 1);
    takes(desk::venue_report(report("G1", "00", 0, 0)), 1);
    takes(desk::replace(replace("C2", "C1", 80), 1), 1);
    takes(desk::cancel(cancel("C3", "C1"), 1), 1);
    takes(desk::cancel_reject(fix("35=9|37=V1|11=G1-2|41=G1|39=0|102=0|58=too late|434=1")), 1);
    const FIX::Message unknown = fix("35=9|37=NONE|11=G1-2|41=G1|39=8|102=1|58=unknown order|434=1");
    CHECK(!desk::cancel_reject(unknown).has(JUBAFIYE_ORD_STATUS));
    CHECK(desk::cancel_reject(unknown, true).has(JUBAFIYE_ORD_STATUS));
    takes(desk::send_failed(fix("35=j|379=G1-1|380=4|58=closed")), 1);
    takes(Record(JUBAFIYE_EVENT_UNKNOWN_AT_VENUE).number(JUBAFIYE_VENUE, 1).text(JUBAFIYE_DOWNSTREAM, "G1"), 0);
    takes(desk::gateway_cancel("G1"), 1);
    CHECK(books.orders(0).size() == 1 && books.orders(0)[0].first_cl_ord_id == "C1");
    CHECK(books.take(0, "no record").refusal == JUBAFIYE_REFUSED_RECORD);
}

void turning() {
    const Record booked = desk::booking(order("C1", "|59=1"), 7, "G5");
    CHECK(booked.number(JUBAFIYE_CLIENT) == 7 && booked.text(JUBAFIYE_NAME) == "G5" && booked.text(JUBAFIYE_CL_ORD_ID) == "C1");
    CHECK(booked.number(JUBAFIYE_QTY) == 1000000 && booked.number(JUBAFIYE_PRICE) == 1025000000);
    CHECK(booked.code(JUBAFIYE_SIDE) == '1' && booked.code(JUBAFIYE_TIME_IN_FORCE) == '1');
    CHECK(desk::cancel(cancel("C2", "C1", "|43=Y"), 7).has(JUBAFIYE_REDELIVERED));
    CHECK(desk::cancel(cancel("C2", "C1", "|97=Y"), 7).has(JUBAFIYE_REDELIVERED));
    CHECK(!desk::cancel(cancel("C2", "C1"), 7).has(JUBAFIYE_REDELIVERED));

    const Record fill = desk::venue_report(report("G1-1", "F1", 3, 40, "|58=by\thand|103=4294967295"));
    CHECK(fill.text(JUBAFIYE_DOWNSTREAM) == "G1-1" && fill.number(JUBAFIYE_LAST_QTY) == 30000);
    CHECK(fill.number(JUBAFIYE_CUM_QTY) == 400000 && fill.number(JUBAFIYE_LAST_PX) == 1000000000);
    CHECK(fill.number(JUBAFIYE_REASON) == 99 && fill.text(JUBAFIYE_TEXT) == "reason 4294967295: by hand");
    const Record cleaned = desk::venue_report(report("G1", "00", 0, 0, "|58=" + std::string(80, 'x')));
    CHECK(cleaned.text(JUBAFIYE_TEXT) == std::string(64, 'x'));
    CHECK(!desk::cancel_reject(fix("35=9|37=a\tb|11=G1-1|102=3")).has(JUBAFIYE_VENUE_ORDER_ID));

    CHECK(turned_away([] { return desk::booking(order("a\tb"), 1, "G1"); }, 11));
    CHECK(turned_away([] { return desk::booking(order(std::string(33, 'c')), 1, "G1"); }, 11));
    CHECK(turned_away([] { return desk::booking(fix("35=D|11=C1|55=W|54=1|40=1|38=0.00001"), 1, "G1"); }, 38));
    CHECK(turned_away([] { return desk::booking(fix("35=D|11=C1|55=W|54=1|40=1"), 1, "G1"); }, 38));
    CHECK(turned_away([] { return desk::venue_report(fix("35=8|11=G1|150=0|39=0")); }, 14));
    CHECK(turned_away([] { return desk::send_failed(fix("35=j|380=4")); }, 379));
    uint64_t count = 0;
    CHECK(desk::read_decimal("1.50000", 4, count) && count == 15000 && desk::decimal(count, 4) == "1.5000");
    CHECK(!desk::read_decimal("-1", 4, count) && !desk::read_decimal("", 4, count) && !desk::read_decimal("1.5.5", 4, count));
}

// 33 orders stand in two books; each event finds its book, also after the journal was opened again.
void routing() {
    const std::string dir = fresh_dir();
    {
        Running day(dir);
        for (int n = 1; n <= 33; n++) day.client(order("C" + std::to_string(n)));
        CHECK(day.desk.books().count() == 2 && day.wire.to("VENUE").size() == 33);
        CHECK(day.desk.books().orders(0).size() == 32 && day.desk.books().orders(1)[0].name == "G33");
    }
    Running again(dir);
    CHECK(again.desk.books().next_name() == "G34");
    again.venue(report("G1", "F1", 40, 40));
    again.venue(report("G33", "F1", 50, 50));
    CHECK(again.desk.books().orders(0)[0].cum == 400000 && again.desk.books().orders(1)[0].cum == 500000);
    again.client(cancel("D1", "C2"));
    again.client(cancel("D2", "D1"));
    CHECK(again.wire.to("VENUE").size() == 2);
    CHECK(again.wire.to("VENUE")[0].at(11) == "G2-1" && again.wire.to("VENUE")[1].at(11) == "G2-2");
    again.venue(report("G99", "F1", 50, 50));
    CHECK(again.wire.to("COOP1").size() == 2);
}

// What the book refuses, and what never becomes an event, is answered by hand.
void refusals() {
    const std::string dir = fresh_dir();
    Running day(dir);
    day.client(fix("35=D|11=C1|55=W|54=1|38=100|40=1|44=10"));
    day.client(fix("35=D|11=C2|55=W|54=1|38=0.00001|40=1"));
    CHECK(day.desk.books().next_name() == "G1");
    day.client(order("C3"));
    day.client(order("C3"));
    day.client(fix("35=D|97=Y|11=C3|55=WHEATH27|54=1|38=100|40=2|44=10.25"));
    day.client(fix("35=G|11=C4|41=C3|55=WHEATH27|54=1|38=90|40=2"));
    day.client(fix("35=H|11=C3"));
    const std::vector<Sent> told = day.wire.to("COOP1");
    CHECK(told.size() == 5 && day.wire.to("VENUE").size() == 1);
    for (size_t n : {0, 1, 2}) CHECK(told[n].at(35) == "8" && told[n].at(150) == "8" && told[n].at(37) == "NONE");
    CHECK(told[0].at(103) == "99" && told[1].at(103) == "99" && told[2].at(103) == "6");
    CHECK(told[0].at(17) != told[1].at(17) && told[1].at(17) != told[2].at(17));
    CHECK(told[3].at(35) == "j" && told[3].at(379) == "C4" && told[3].at(372) == "G" && told[3].at(39).empty());
    CHECK(told[4].at(35) == "j" && told[4].at(380) == "3");
    day.venue(report("G1", "B0", 0, 0));
    day.venue(fix("35=8|11=G1|150=0"));
    const std::string refused = file(dir + "/desk-refused.tsv");
    CHECK(refused.find("\t4\trefused: a field is out of its range\t8=FIX.4.4|") != std::string::npos);
    CHECK(refused.find("\n0\t0\ttag 14 is missing\t") != std::string::npos);
}

// A session that is down gets its rows once it is up, in order; what waited over a restart is marked, and a request whose
// order is done meanwhile is told as not sent.
void waiting() {
    const std::string dir = fresh_dir();
    {
        Running day(dir);
        day.wire.down["COOP1"] = day.wire.down["VENUE"] = true;
        day.client(order("C1"));
        CHECK(day.wire.sent.empty() && day.desk.outbox().waiting().size() == 1);
        day.wire.down["VENUE"] = false;
        day.desk.logged_on("VENUE");
        CHECK(day.wire.to("VENUE").size() == 1 && day.wire.to("VENUE")[0].at(97).empty());
        day.wire.down["VENUE"] = true;
        day.client(cancel("C2", "C1"));
        day.venue(report("G1", "F2", 100, 100));
        CHECK(day.desk.outbox().waiting().size() == 2);
    }
    Running again(dir);
    again.desk.logged_on("COOP1");
    const std::vector<Sent> told = again.wire.to("COOP1");
    CHECK(again.wire.to("VENUE").empty() && told.size() == 2 && again.desk.outbox().waiting().empty());
    CHECK(told[0].at(17) == "G1.1" && told[0].at(32) == "100.0000" && told[0].at(97) == "Y");
    CHECK(told[1].at(35) == "9" && told[1].at(58) == "not sent before restart" && told[1].at(97).empty());
}

void sheets() {
    const std::string dir = fresh_dir();
    Running day(dir, desk::Fault::NONE, true);
    day.client(order("C1"));
    day.client(fix("35=D|11=C2|55=MAIZEK27|54=2|38=7.5|40=1"));
    day.venue(report("G1", "F1", 40, 40));
    day.venue(report("G1", "F2", 10, 50));
    day.venue(report("G2", "F1", 2, 2));
    day.desk.write_sheets();
    CHECK(file(dir + "/desk.tsv").find("\nG1\t0\t1\tC1\tWHEATH27\t1\t100.0000\t50.0000\t1\t6\n") != std::string::npos);
    CHECK(file(dir + "/desk.tsv").find("\nG2\t0\t1\tC2\tMAIZEK27\t2\t7.5000\t2.0000\t1\t-\n") != std::string::npos);
    CHECK(file(dir + "/desk-net.tsv") == "client\tsymbol\tnet\n1\tMAIZEK27\t-2.0000\n1\tWHEATH27\t50.0000\n");
    CHECK(file(dir + "/desk-alarms.tsv") == "seq\talarm\torder\n6\t6\tG1\n");
    CHECK(file(dir + "/desk-page.txt").size() == 2 * JUBAFIYE_PAGE_LINE);
    CHECK(file(dir + "/desk-times.tsv").find("part\tcount\tseconds\nmessage\t5\t") == 0);
    day.desk.dropped("COOP1");
    CHECK(day.wire.to("VENUE").size() == 4 && day.wire.to("VENUE")[3].at(35) == "F" && day.wire.to("VENUE")[3].at(41) == "G2");
}

} // namespace test

int main() {
    const std::pair<const char *, void (*)()> all[] = {
        {"records", test::records}, {"turning", test::turning}, {"routing", test::routing},
        {"refusals", test::refusals}, {"cuts", test::cuts},     {"waiting", test::waiting},
        {"sheets", test::sheets},   {"old way", test::old_way}, {"faults", test::faults}};
    for (const auto &one : all) {
        const int before = test::made();
        try {
            one.second();
        } catch (const std::exception &why) {
            fprintf(stderr, "%s: %s\n", one.first, why.what());
            test::check(false, "no exception", __FILE__, __LINE__);
        }
        test::check(test::made() > before, "it checks something", one.first, 0);
    }
    printf("desk-test: %d checks, %d failed\n", test::made(), test::failed());
    return test::failed() ? 1 : 0;
}
