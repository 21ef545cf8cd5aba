// The desk: FIX messages in, events to the books, everything into the journal, and then out through the outbox.
#ifndef REHEARSAL_DESK_HPP
#define REHEARSAL_DESK_HPP

#include "books.hpp"
#include "outbox.hpp"
#include "turn.hpp"

namespace desk {

// What takes the messages of sessions, one call at a time: the desk, or the old way. A session is the peer's comp ID.
class Taker {
public:
    virtual ~Taker() = default;
    virtual void take(const FIX::Message &message, const std::string &session) = 0;
    virtual void logged_on(const std::string &session) = 0;
    virtual void dropped(const std::string &session) = 0;
    virtual void write_sheets() = 0;
};

struct Options {
    std::string dir;
    Fault fault = Fault::NONE;
    bool sync = true;
    bool cancel_on_drop = false;
};

class Desk : public Taker {
public:
    // Opens DIR/journal.sqlite: every event is run again and its answer compared with the kept one, and what waits is settled.
    Desk(const Options &options, Sessions &sessions);

    void take(const FIX::Message &message, const std::string &session) override;
    void logged_on(const std::string &session) override;
    void dropped(const std::string &session) override;
    void write_sheets() override;

    const Books &books() const { return books_; }
    Journal &journal() { return journal_; }
    const Outbox &outbox() const { return outbox_; }

private:
    void replay();
    void settle_waiting();
    void take_of_client(const FIX::Message &message, uint16_t client);
    void take_order(const FIX::Message &message, uint16_t client);
    void take_amendment(const FIX::Message &message, uint16_t client);
    void take_of_venue(const FIX::Message &message);
    Answer put(size_t book, const Record &event, bool repeat = false);
    Answer ask(size_t book, const Bytes &record);
    void commit();
    void put_by_hand(uint16_t client, const FIX::Message &message);
    std::string exec_id() const { return "D" + std::to_string(journal_.next_row()); }
    Bytes told(const Record &event, const Bytes &message) const;
    void log_refused(uint64_t seq, uint32_t refusal, const FIX::Message &message, const std::string &why);

    Options options_;
    Spent spent_;
    Journal journal_;
    Books books_;
    Outbox outbox_;
};

const char VENUE[] = "VENUE";
const char VENUE_DROP[] = "VENUEDROP";

// The session of client number i, COOPi, and back; 0 for a name that is none.
std::string session_of(uint16_t client);
uint16_t client_of(const std::string &session);

// The sheets that a run leaves in DIR (sheets.cpp).
void write_desk_sheets(const std::string &dir, const Books &books, Journal &journal, const Spent &spent);

} // namespace desk

#endif
