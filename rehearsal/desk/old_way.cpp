// The old way. A fill under the replaced ClOrdID goes to the line of that ClOrdID, the status under the new one to the line of
// the new one: two lines, each short, of one order. If the venue says that nothing is left of a line that is short, the
// missing rest is bought again. Reports that come twice are told apart by ExecID, and the drop copy, which may overtake the
// order session, is not listened to.
#include "old_way.hpp"

#include <fstream>
#include <stdexcept>

namespace desk {

namespace {

uint64_t qty(const FIX::Message &message, int tag) {
    uint64_t count = 0;
    read_decimal(value(message, tag), QTY_PLACES, count);
    return count;
}

FIX::Message message_like(const std::string &type, const FIX::Message &from, std::initializer_list<int> tags) {
    FIX::Message message;
    message.getHeader().setField(8, "FIX.4.4");
    message.getHeader().setField(35, type);
    for (int tag : tags)
        if (!value(from, tag).empty()) message.setField(tag, value(from, tag));
    return message;
}

} // namespace

void OldWay::take(const FIX::Message &message, const std::string &session) {
    const std::string type = message_type(message);
    if (type == "D" || type == "F" || type == "G") take_request(message, session);
    if (type == "8" && session != VENUE_DROP) take_report(message);
}

void OldWay::take_request(const FIX::Message &message, const std::string &session) {
    const auto changed = at_venue_.find({session, value(message, 41)});
    const std::string orig = changed == at_venue_.end() ? "" : changed->second;
    const bool fits = (message_type(message) == "D") == orig.empty();
    if (!fits || at_venue_.count({session, value(message, 11)})) return;
    const std::string name = orig.empty() ? "G" + std::to_string(++booked_) : name_of(orig);
    const std::string clordid = orig.empty() ? name : name + "-" + std::to_string(++amendments_[name]);
    Line line{message, session, qty(message, 38), orig.empty() ? 0 : lines_[orig].cum, 'A'};
    if (message_type(message) == "F") {
        line.request = lines_[orig].request;
        line.ordered = lines_[orig].ordered;
    }
    lines_[clordid] = line;
    at_venue_[{session, value(message, 11)}] = clordid;
    to_venue(message_type(message), clordid, orig, line);
}

// The line is the one of the ClOrdID as it comes. This is the whole fault.
void OldWay::take_report(const FIX::Message &message) {
    const auto found = lines_.find(value(message, 11));
    if (found == lines_.end() || !exec_ids_.insert(value(message, 17)).second) return;
    Line &line = found->second;
    line.cum += qty(message, 32);
    line.status = value(message, 39).empty() ? line.status : value(message, 39)[0];
    to_client(message, line);
    const bool filled = line.status == '2' && qty(message, 151) == 0;
    if (!filled || line.cum >= line.ordered) return;
    Line rest = line;
    rest.ordered -= line.cum;
    rest.cum = 0;
    line.cum = line.ordered;
    const std::string again = "G" + std::to_string(++booked_);
    lines_[again] = rest;
    to_venue("D", again, "", rest);
}

void OldWay::to_venue(const std::string &type, const std::string &clordid, const std::string &orig, const Line &line) {
    FIX::Message message = message_like(type, line.request, {40, 44, 54, 55, 59, 60});
    message.setField(11, clordid);
    message.setField(38, decimal(line.ordered, QTY_PLACES));
    if (!orig.empty()) message.setField(41, orig);
    sessions_.send(message, VENUE);
}

void OldWay::to_client(const FIX::Message &report, const Line &line) {
    FIX::Message message = message_like("8", report, {6, 17, 31, 32, 37, 39, 54, 55, 58, 103, 150});
    message.setField(11, value(line.request, 11));
    message.setField(14, decimal(line.cum, QTY_PLACES));
    message.setField(38, decimal(line.ordered, QTY_PLACES));
    message.setField(151, decimal(line.ordered < line.cum ? 0 : line.ordered - line.cum, QTY_PLACES));
    sessions_.send(message, line.session);
}

// desk.tsv alone: a line for each ClOrdID at the venue.
void OldWay::write_sheets() {
    std::ofstream out(dir_ + "/desk.tsv", std::ios::trunc);
    out << "name\tbook\tclient\tfirst_clordid\tsymbol\tside\tordered\tcum\tstatus\talarms\n";
    for (const auto &entry : lines_) {
        const Line &line = entry.second;
        out << entry.first << "\t0\t" << client_of(line.session) << '\t' << value(line.request, 11) << '\t'
            << value(line.request, 55) << '\t' << value(line.request, 54) << '\t' << decimal(line.ordered, QTY_PLACES) << '\t'
            << decimal(line.cum, QTY_PLACES) << '\t' << line.status << "\t-\n";
    }
    if (!out.flush()) throw std::runtime_error("cannot write " + dir_ + "/desk.tsv");
}

} // namespace desk
