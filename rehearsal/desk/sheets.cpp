// The sheets that the desk leaves in its run directory when it ends: orders, evening page, net position, alarms, and
// where the time went.
#include <fstream>
#include <functional>
#include <stdexcept>

#include "desk.hpp"

namespace desk {

namespace {

const uint8_t *data(const Bytes &bytes) {
    return reinterpret_cast<const uint8_t *>(bytes.data());
}

void write_file(const std::string &path, const std::function<void(std::ostream &)> &with) {
    std::ofstream out(path, std::ios::trunc);
    with(out);
    if (!out.flush()) throw std::runtime_error("cannot write " + path);
}

struct Alarm {
    uint64_t seq;
    int alarm;
    std::string order;
};

// The order that an event names, as it was named: the part of a downstream ClOrdID before its `-`.
std::string order_named(const Bytes &record) {
    const Record event = Record::read(record);
    return event.has(JUBAFIYE_DOWNSTREAM) ? name_of(event.text(JUBAFIYE_DOWNSTREAM)) : event.text(JUBAFIYE_NAME);
}

std::vector<Alarm> alarms_of(Journal &journal) {
    std::vector<Alarm> alarms;
    journal.each_event([&](const Kept &kept) {
        const Answer answer{kept.refusal, kept.answer};
        for (int which : {0, 1})
            if (answer.alarm(which)) alarms.push_back({kept.seq, answer.alarm(which), order_named(kept.record)});
    });
    return alarms;
}

void write_orders(std::ostream &out, const Books &books, const std::vector<Alarm> &alarms) {
    std::map<std::string, std::string> of_order;
    for (const Alarm &alarm : alarms) {
        std::string &list = of_order[alarm.order];
        list += (list.empty() ? "" : ",") + std::to_string(alarm.alarm);
    }
    out << "name\tbook\tclient\tfirst_clordid\tsymbol\tside\tordered\tcum\tstatus\talarms\n";
    for (size_t book = 0; book < books.count(); book++)
        for (const Order &order : books.orders(book))
            out << order.name << '\t' << book << '\t' << order.client << '\t' << order.first_cl_ord_id << '\t' << order.symbol
                << '\t' << order.side << '\t' << decimal(order.ordered, QTY_PLACES) << '\t' << decimal(order.cum, QTY_PLACES)
                << '\t' << order.status << '\t' << (of_order.count(order.name) ? of_order[order.name] : "-") << '\n';
}

void write_pages(std::ostream &out, const Books &books) {
    for (size_t book = 0; book < books.count(); book++) {
        std::string text(JUBAFIYE_PAGE_BYTES, '\0');
        const Bytes &bytes = books.bytes(book);
        const Counted page = ::page(data(bytes), bytes.size(), reinterpret_cast<uint8_t *>(&text[0]), text.size());
        if (page.refusal) throw std::runtime_error("no page of book " + std::to_string(book));
        out << text.substr(0, page.number);
    }
}

// Adds a book's lines of net position to the sums by client and symbol.
void add_net(const Bytes &book, std::map<std::pair<uint64_t, std::string>, int64_t> &sums) {
    uint64_t scratch[JUBAFIYE_NET_SCRATCH];
    Bytes lines(JUBAFIYE_NET_BYTES, '\0');
    const Counted net = ::net_position(data(book), book.size(), scratch, JUBAFIYE_NET_SCRATCH,
                                       reinterpret_cast<uint8_t *>(&lines[0]), lines.size());
    if (net.refusal) throw std::runtime_error("no net position of a book");
    for (size_t line = 0; line < net.number; line++) {
        const uint8_t *at = data(lines) + line * JUBAFIYE_NET_LINE;
        uint64_t count = 0;
        for (int byte = 7; byte >= 0; byte--) count = count << 8 | at[19 + byte];
        const std::string symbol(reinterpret_cast<const char *>(at) + 3, at[2]);
        sums[{uint64_t(at[0] | at[1] << 8), symbol}] += int64_t(count);
    }
}

void write_net(std::ostream &out, const Books &books) {
    std::map<std::pair<uint64_t, std::string>, int64_t> sums;
    for (size_t book = 0; book < books.count(); book++) add_net(books.bytes(book), sums);
    out << "client\tsymbol\tnet\n";
    for (const auto &sum : sums)
        out << sum.first.first << '\t' << sum.first.second << '\t' << (sum.second < 0 ? "-" : "")
            << decimal(uint64_t(sum.second < 0 ? -sum.second : sum.second), QTY_PLACES) << '\n';
}

void write_alarms(std::ostream &out, const std::vector<Alarm> &alarms) {
    out << "seq\talarm\torder\n";
    for (const Alarm &alarm : alarms) out << alarm.seq << '\t' << alarm.alarm << '\t' << alarm.order << '\n';
}

void write_times(std::ostream &out, const Spent &spent) {
    const std::pair<const char *, Part> parts[] = {
        {"message", spent.message}, {"book", spent.book}, {"commit", spent.commit}, {"send", spent.send}, {"note", spent.note}};
    out << "part\tcount\tseconds\n";
    for (const auto &part : parts) out << part.first << '\t' << part.second.count << '\t' << part.second.seconds << '\n';
}

} // namespace

void write_desk_sheets(const std::string &dir, const Books &books, Journal &journal, const Spent &spent) {
    const std::vector<Alarm> alarms = alarms_of(journal);
    write_file(dir + "/desk.tsv", [&](std::ostream &out) { write_orders(out, books, alarms); });
    write_file(dir + "/desk-page.txt", [&](std::ostream &out) { write_pages(out, books); });
    write_file(dir + "/desk-net.tsv", [&](std::ostream &out) { write_net(out, books); });
    write_file(dir + "/desk-alarms.tsv", [&](std::ostream &out) { write_alarms(out, alarms); });
    write_file(dir + "/desk-times.tsv", [&](std::ostream &out) { write_times(out, spent); });
}

} // namespace desk
