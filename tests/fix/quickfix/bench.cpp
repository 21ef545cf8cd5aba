// Nanoseconds to write and to read an ExecutionReport: the library beside QuickFIX doing the same, in one process, the
// thread's own time, the best of all rounds. `bench [ROUNDS]`

#include "common.h"

#include "../../../host/include/fix.h"

#include <algorithm>
#include <cstdio>
#include <cstdlib>
#include <cstring>
#include <ctime>

namespace {

const int CALLS = 2000;

double nanoseconds() {
    timespec time;
    clock_gettime(CLOCK_THREAD_CPUTIME_ID, &time);
    return time.tv_sec * 1e9 + time.tv_nsec;
}

volatile uint64_t sink;

// The best of all rounds, for one call.
class Timed {
public:
    explicit Timed(const char *what) : what(what), best(1e18) {}

    template <class Call> void round(Call call) {
        double start = nanoseconds();
        for (int at = 0; at < CALLS; at++) sink = sink + call();
        best = std::min(best, (nanoseconds() - start) / CALLS);
    }

    const char *what;
    double best;
};

void number(std::string &record, uint64_t value, int bytes) {
    for (; bytes > 0; bytes--, value >>= 8) record.push_back(char(value));
}

void text(std::string &record, const char *value) {
    record.push_back(char(std::strlen(value)));
    record += value;
}

// A fill of 40 at 10.25, the report of a limit order of 100; `text` with a reason and a text beside it.
std::string record(bool longest) {
    std::string fields;
    number(fields, 7, 2);
    text(fields, "0A1B2C20");
    text(fields, "CLIENT-00000013");
    if (longest) text(fields, "CLIENT-00000012");
    text(fields, "WHEATH27");
    fields += "12";
    number(fields, 1000000, 8);
    number(fields, 1025000000, 8);
    if (longest) fields += "1";
    fields += "F1";
    number(fields, 400000, 8);
    number(fields, 400000, 8);
    number(fields, 1025000000, 8);
    if (longest) number(fields, 99, 4), text(fields, "partly filled, the rest stands");
    number(fields, 600000, 8);
    number(fields, 2, 8);
    number(fields, 1025000000, 8), number(fields, 0, 8);
    if (longest) fields += '\2';
    fields += '\1';
    uint32_t map = 0;
    for (int bit : {0, 2, 3, 6, 7, 8, 9, 10, 12, 13, 14, 16, 17, 24, 25, 26, 31}) map |= 1u << bit;
    if (longest)
        for (int bit : {4, 11, 19, 20, 28}) map |= 1u << bit;
    std::string whole(1, 16);
    number(whole, map, 4);
    return whole + fields;
}

const std::string SENDER = "GATEWAY", TARGET = "DESK", TIME = "20261116-12:34:56.789";

const uint8_t *bytes(const std::string &text) { return reinterpret_cast<const uint8_t *>(text.data()); }

uint64_t write(const std::string &record, uint8_t *out, size_t room) {
    Written written = fix_write(bytes(record), record.size(), bytes(SENDER), SENDER.size(), bytes(TARGET), TARGET.size(), 42,
                                bytes(TIME), TIME.size(), out, room);
    if (written.refusal != 0) std::abort();
    return written.length;
}

// The same report in QuickFIX's types.
void fill(FIX44::ExecutionReport &report, bool longest, const FIX::UtcTimeStamp &time) {
    FIX::Header &header = report.getHeader();
    header.setField(FIX::SenderCompID(SENDER));
    header.setField(FIX::TargetCompID(TARGET));
    header.setField(FIX::MsgSeqNum(42));
    header.setField(FIX::SendingTime(time, 3));
    report.set(FIX::OrderID("0A1B2C20"));
    report.set(FIX::ClOrdID("CLIENT-00000013"));
    if (longest) report.set(FIX::OrigClOrdID("CLIENT-00000012"));
    report.set(FIX::Symbol("WHEATH27"));
    report.set(FIX::Side('1'));
    report.set(FIX::OrdType('2'));
    report.set(FIX::OrderQty(100));
    report.set(FIX::Price(10.25));
    if (longest) report.set(FIX::TimeInForce('1'));
    report.set(FIX::ExecType('F'));
    report.set(FIX::OrdStatus('1'));
    report.set(FIX::LastQty(40));
    report.set(FIX::CumQty(40));
    report.set(FIX::AvgPx(10.25));
    if (longest) report.set(FIX::OrdRejReason(99)), report.set(FIX::Text("partly filled, the rest stands"));
    report.set(FIX::LeavesQty(60));
    report.set(FIX::ExecID("0A1B2C20.2"));
    report.set(FIX::LastPx(10.25));
}

void bench(const char *what, bool longest, int rounds) {
    const std::string record = ::record(longest);
    uint8_t out[1024];
    const std::string message(reinterpret_cast<char *>(out), write(record, out, sizeof out));
    FIX::UtcTimeStamp time = FIX::UtcTimeStampConvertor::convert(TIME);
    FIX44::ExecutionReport filled;
    fill(filled, longest, time);
    std::string room;
    Timed writing("the library"), spelling("toString"), typed("fields set and toString");
    Timed reading("the library"), parsing("parsing");
    for (; rounds > 0; rounds--) {
        writing.round([&] { return write(record, out, sizeof out); });
        spelling.round([&] { return filled.toString(room).size(); });
        typed.round([&] {
            FIX44::ExecutionReport report;
            fill(report, longest, time);
            return report.toString(room).size();
        });
        reading.round([&] {
            FixFields fields = fix_read(bytes(message), message.size());
            if (fields.refusal != 0) std::abort();
            return uint64_t(fields.count);
        });
        parsing.round([&] {
            FIX::Message parsed(message, true);
            return uint64_t(parsed.getHeader().isSetField(52));
        });
    }
    std::printf("    %s, %zu bytes: written in %.0f ns; QuickFIX: toString %.0f (%.2f), its fields set before %.0f (%.2f)\n", what,
                message.size(), writing.best, spelling.best, writing.best / spelling.best, typed.best, writing.best / typed.best);
    std::printf("    %s, %zu bytes: read in %.0f ns; QuickFIX parses it in %.0f (%.2f)\n", what, message.size(), reading.best,
                parsing.best, reading.best / parsing.best);
}

} // namespace

int main(int count, char **arguments) {
    int rounds = count > 1 ? std::atoi(arguments[1]) : 50;
    std::printf("fix: an ExecutionReport, the best of %d rounds\n", rounds);
    bench("a fill", false, rounds);
    bench("all fields", true, rounds);
    return 0;
}
