// The journal: events, answers and what is to be sent, in SQLite, one transaction for a FIX message (desk/README.md).
#ifndef REHEARSAL_JOURNAL_HPP
#define REHEARSAL_JOURNAL_HPP

#include <functional>
#include <map>
#include <string>
#include <vector>

#include <sqlite3.h>

#include "record.hpp"

namespace desk {

// An event as it is kept.
struct Kept {
    uint64_t seq;
    size_t book;
    Bytes record;
    uint32_t refusal;
    Bytes answer;
};

// A message made by hand and not by the book: its record is the text of the FIX message.
const int BY_HAND = 0;

// What became of a row of the outbox.
enum Sent { WAITS = 0, HANDED_OVER = 1, SETTLED_BY_EVENT_8 = 2 };

// A message that is to be handed to a session: message n of the answer to event seq.
struct Row {
    int64_t id;
    uint64_t seq;
    int n;
    std::string session;
    int kind;
    Bytes record;
    bool repeat; // it may have been handed over before a restart
};

// Every call throws std::runtime_error if SQLite fails: the desk then ends, and what is on the disk is found by opening.
class Journal {
public:
    // Opens or makes the journal. With `sync` a commit is on the disk when it returns, else with the operating system.
    Journal(const std::string &path, bool sync);
    ~Journal();
    Journal(const Journal &) = delete;
    Journal &operator=(const Journal &) = delete;

    void begin();
    void commit();

    // The event's number, from 1.
    uint64_t put_event(size_t book, const Bytes &record, uint32_t refusal, const Bytes &answer);
    // The row's number.
    int64_t put_row(const Row &row);
    void note(int64_t row, Sent sent);
    void mark_waiting_as_repeats();

    uint64_t last_seq() const { return seq_; }
    int64_t next_row() const { return row_ + 1; }
    void each_event(const std::function<void(const Kept &)> &with);
    // What waits, in the order of handing over.
    std::vector<Row> waiting();

private:
    sqlite3_stmt *statement(const char *query);
    void step(sqlite3_stmt *statement);
    void run(const char *query);
    int64_t number(const char *query);
    [[noreturn]] void fail() const;

    sqlite3 *db_ = nullptr;
    uint64_t seq_ = 0;
    int64_t row_ = 0;
    std::map<const char *, sqlite3_stmt *> statements_;
};

} // namespace desk

#endif
