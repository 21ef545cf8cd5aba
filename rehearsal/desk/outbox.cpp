// Handing over: the library writes the FIX text, QuickFIX parses and sends it.
#include "outbox.hpp"

#include <chrono>
#include <cstdio>
#include <ctime>
#include <map>
#include <stdexcept>

#include "fix.h"

namespace desk {

namespace {

const uint8_t *data(const std::string &text) {
    return reinterpret_cast<const uint8_t *>(text.data());
}

// Now as a UTCTimestamp with milliseconds.
std::string now() {
    const auto since = std::chrono::system_clock::now().time_since_epoch();
    const int64_t milliseconds = std::chrono::duration_cast<std::chrono::milliseconds>(since).count();
    const time_t seconds = time_t(milliseconds / 1000);
    tm parts;
    gmtime_r(&seconds, &parts);
    char day[32], text[48];
    strftime(day, sizeof day, "%Y%m%d-%H:%M:%S", &parts);
    snprintf(text, sizeof text, "%s.%03d", day, int(milliseconds % 1000));
    return text;
}

// The text of a message of the book under the session's comp IDs.
std::string written(const Row &row) {
    const std::string sender = "GATEWAY", time = now();
    std::string out(4096, '\0');
    const Written done = ::fix_write(data(row.record), row.record.size(), data(sender), sender.size(), data(row.session),
                                     row.session.size(), 1, data(time), time.size(), reinterpret_cast<uint8_t *>(&out[0]),
                                     out.size());
    if (done.refusal)
        throw std::runtime_error("fix_write refuses row " + std::to_string(row.id) + " with " + std::to_string(done.refusal));
    out.resize(size_t(done.length));
    return out;
}

bool is_fill(const Row &row) {
    return row.kind == JUBAFIYE_MESSAGE_REPORT && Record::read(row.record).number(JUBAFIYE_LAST_QTY) > 0;
}

} // namespace

FIX::Message message_of(const Row &row) {
    FIX::Message message(row.kind == BY_HAND ? row.record : written(row), false);
    if (row.repeat) message.getHeader().setField(97, "Y");
    // FIX 4.4 requires ExecRestatementReason(378) with ExecType D, and the book takes none from a venue: 99, other.
    if (message.isSetField(150) && message.getField(150) == "D") message.setField(378, "99");
    return message;
}

void Outbox::load(bool restarted) {
    restarted_ = restarted;
    waiting_ = journal_.waiting();
}

void Outbox::put(Row row) {
    row.id = journal_.put_row(row);
    waiting_.push_back(row);
}

// A session's state is asked once, so that no row overtakes another of its session.
void Outbox::hand_over(bool logged_on) {
    std::map<std::string, bool> up;
    std::vector<Row> left;
    std::vector<int64_t> handed;
    for (const Row &row : waiting_) {
        if (!up.count(row.session)) up[row.session] = sessions_.up(row.session);
        if (!up[row.session]) {
            left.push_back(row);
            continue;
        }
        if (!dropped(row, logged_on)) send(row);
        handed.push_back(row.id);
    }
    waiting_.swap(left);
    if (!handed.empty()) note(handed);
}

void Outbox::note(const std::vector<int64_t> &handed) {
    const Timer timer(spent_.note);
    journal_.begin();
    for (int64_t row : handed) journal_.note(row, HANDED_OVER);
    journal_.commit();
}

bool Outbox::dropped(const Row &row, bool logged_on) const {
    return fault_ == Fault::DROP_REPORT && restarted_ && logged_on && is_fill(row);
}

void Outbox::send(const Row &row) {
    const Timer timer(spent_.send);
    FIX::Message message = message_of(row);
    sessions_.send(message, row.session);
    if (fault_ != Fault::SEND_TWICE || sent_twice_ || row.kind != JUBAFIYE_MESSAGE_NEW_ORDER) return;
    sent_twice_ = true;
    FIX::Message again = message_of(row);
    again.setField(11, again.getField(11) + "-99");
    sessions_.send(again, row.session);
}

} // namespace desk
