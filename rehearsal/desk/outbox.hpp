// The outbox: messages that are on the disk and go to their sessions, each noted once it is handed over (desk/README.md).
#ifndef REHEARSAL_OUTBOX_HPP
#define REHEARSAL_OUTBOX_HPP

#include <vector>

#include <quickfix/Message.h>

#include "journal.hpp"
#include "spent.hpp"

namespace desk {

// What the desk asks of a FIX engine. A session is named by the peer's comp ID: COOP1, VENUE.
class Sessions {
public:
    virtual ~Sessions() = default;
    virtual bool up(const std::string &session) = 0;
    virtual void send(FIX::Message &message, const std::string &session) = 0;
};

// Faults that a rehearsal plants to see them found.
enum class Fault {
    NONE,
    DROP_REPORT,   // after a restart a fill's report that waits for its session is noted and not sent
    SEND_TWICE,    // the first new order of the process is put out again under a fresh ClOrdID
    LAST_QTY,      // the client is told the venue's LastQty in place of the book's rise
    UNKNOWN_STATUS // the OrdStatus 8 of a cancel reject for an unknown order is given to the book as it comes
};

class Outbox {
public:
    Outbox(Journal &journal, Sessions &sessions, Fault fault, Spent &spent)
        : journal_(journal), sessions_(sessions), fault_(fault), spent_(spent) {}

    // Takes up what waits on the disk, after a restart.
    void load(bool restarted);
    // Puts a message in, within the journal's transaction.
    void put(Row row);
    // Hands over what waits for a session that is up, in order, and notes it. `logged_on`: a session came up just now.
    void hand_over(bool logged_on);

    const std::vector<Row> &waiting() const { return waiting_; }

private:
    bool dropped(const Row &row, bool logged_on) const;
    void send(const Row &row);
    void note(const std::vector<int64_t> &handed);

    Journal &journal_;
    Sessions &sessions_;
    Fault fault_;
    Spent &spent_;
    bool restarted_ = false, sent_twice_ = false;
    std::vector<Row> waiting_;
};

// The FIX message of a row, with PossResend(97) if it may have gone before. The engine adds number and time.
FIX::Message message_of(const Row &row);

} // namespace desk

#endif
