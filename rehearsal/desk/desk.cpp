// The desk's handling of each message: journal first, then out.
#include "desk.hpp"

#include <fstream>
#include <stdexcept>

#include "by_hand.hpp"

namespace desk {

namespace {

bool to_venue(const Bytes &message) {
    return message[0] >= JUBAFIYE_MESSAGE_NEW_ORDER;
}

// The session of a message's peer: the client or the venue at the front of its fields.
std::string peer(const Bytes &message) {
    return to_venue(message) ? VENUE : session_of(uint16_t(Record::read(message).number(JUBAFIYE_CLIENT)));
}

} // namespace

std::string session_of(uint16_t client) {
    return "COOP" + std::to_string(client);
}

uint16_t client_of(const std::string &session) {
    uint64_t number = 0;
    const bool one = session.compare(0, 4, "COOP") == 0 && read_decimal(session.substr(4), 0, number) && number <= 65535;
    return one ? uint16_t(number) : 0;
}

Desk::Desk(const Options &options, Sessions &sessions)
    : options_(options), journal_(options.dir + "/journal.sqlite", options.sync),
      outbox_(journal_, sessions, options.fault, spent_) {
    replay();
    settle_waiting();
}

void Desk::replay() {
    journal_.each_event([this](const Kept &kept) {
        const Answer answer = books_.take(kept.book, kept.record);
        if (answer.refusal != kept.refusal || answer.bytes != kept.answer)
            throw std::runtime_error("the library answers otherwise to event " + std::to_string(kept.seq));
    });
}

// What waited before a restart may have gone: reports and rejects go again, marked; a request is put again by event 8, which
// sends it again under its own ClOrdID, or tells its client that it was not sent.
void Desk::settle_waiting() {
    const std::vector<Row> before = journal_.waiting();
    if (!before.empty()) {
        journal_.begin();
        journal_.mark_waiting_as_repeats();
        for (const Row &row : before) {
            if (row.kind == BY_HAND || !to_venue(row.record)) continue;
            journal_.note(row.id, SETTLED_BY_EVENT_8);
            const std::string downstream = Record::read(row.record).text(JUBAFIYE_DOWNSTREAM);
            put(books_.of_downstream(downstream), send_again(downstream), true);
        }
        commit();
    }
    outbox_.load(journal_.last_seq() > 0);
}

void Desk::take(const FIX::Message &message, const std::string &session) {
    const Timer timer(spent_.message);
    if (session == VENUE || session == VENUE_DROP)
        take_of_venue(message);
    else
        take_of_client(message, client_of(session));
    outbox_.hand_over(false);
}

void Desk::logged_on(const std::string &) {
    outbox_.hand_over(true);
}

// With --cancel-on-drop the gateway cancels what a client leaves alone.
void Desk::dropped(const std::string &session) {
    const uint16_t client = client_of(session);
    if (!options_.cancel_on_drop || client == 0) return;
    journal_.begin();
    for (size_t book = 0; book < books_.count(); book++)
        for (const Order &order : books_.orders(book))
            if (order.client == client && !order.done()) put(book, gateway_cancel(order.name));
    commit();
    outbox_.hand_over(false);
}

void Desk::write_sheets() {
    write_desk_sheets(options_.dir, books_, journal_, spent_);
}

void Desk::take_of_client(const FIX::Message &message, uint16_t client) {
    const std::string type = message_type(message);
    journal_.begin();
    try {
        if (type == "D")
            take_order(message, client);
        else if (type == "F" || type == "G")
            take_amendment(message, client);
        else
            put_by_hand(client, business_rejected(message, UNKNOWN_MESSAGE_TYPE, "not taken here"));
    } catch (const TurnedAway &why) {
        if (type == "D")
            put_by_hand(client, order_rejected(message, exec_id(), OTHER_REASON, why.what()));
        else
            put_by_hand(client, business_rejected(message, BUSINESS_OTHER, why.what()));
    }
    commit();
}

// A booking puts nothing out: the order itself is what event 8 sends, and changes nothing. An order that is delivered again
// is in the book, and its reports are in the outbox or told.
void Desk::take_order(const FIX::Message &message, uint16_t client) {
    const std::string name = books_.next_name();
    const Record event = booking(message, client, name);
    if (books_.used(client, event.text(JUBAFIYE_CL_ORD_ID))) {
        if (!redelivered(message))
            put_by_hand(client, order_rejected(message, exec_id(), DUPLICATE_ORDER, refusal_text(JUBAFIYE_REFUSED_IN_USE)));
        return;
    }
    const size_t book = books_.next_book();
    const uint32_t refusal = put(book, event).refusal;
    if (refusal == JUBAFIYE_TAKEN)
        put(book, send_again(name));
    else
        put_by_hand(client, order_rejected(message, exec_id(), OTHER_REASON, refusal_text(refusal)));
}

void Desk::take_amendment(const FIX::Message &message, uint16_t client) {
    const Record event = message_type(message) == "F" ? cancel(message, client) : replace(message, client);
    const size_t book = books_.of_cl_ord_id(client, event.text(JUBAFIYE_ORIG_CL_ORD_ID));
    const uint32_t refusal = put(book, event).refusal;
    if (refusal != JUBAFIYE_TAKEN) put_by_hand(client, business_rejected(message, BUSINESS_OTHER, refusal_text(refusal)));
}

void Desk::take_of_venue(const FIX::Message &message) {
    const std::string type = message_type(message);
    try {
        if (type != "8" && type != "9" && type != "j") throw TurnedAway(35, "is not taken here");
        const bool as_it_comes = options_.fault == Fault::UNKNOWN_STATUS;
        const Record event =
            type == "8" ? venue_report(message) : type == "9" ? cancel_reject(message, as_it_comes) : send_failed(message);
        journal_.begin();
        const uint32_t refusal = put(books_.of_downstream(event.text(JUBAFIYE_DOWNSTREAM)), event).refusal;
        commit();
        if (refusal != JUBAFIYE_TAKEN) log_refused(journal_.last_seq(), refusal, message, refusal_text(refusal));
    } catch (const TurnedAway &why) {
        log_refused(0, 0, message, why.what());
    }
}

// Puts an event to a book and, within the journal's transaction, keeps it with its answer and puts its messages out.
// `repeat`: what it sends to the venue may have been sent before.
Answer Desk::put(size_t book, const Record &event, bool repeat) {
    const Bytes record = event.bytes();
    const Answer answer = ask(book, record);
    const uint64_t seq = journal_.put_event(book, record, answer.refusal, answer.bytes);
    int n = 0;
    for (const Bytes &message : answer.messages())
        outbox_.put(Row{0, seq, n++, peer(message), message[0], told(event, message), repeat && to_venue(message)});
    return answer;
}

Answer Desk::ask(size_t book, const Bytes &record) {
    const Timer timer(spent_.book);
    return books_.take(book, record);
}

void Desk::commit() {
    const Timer timer(spent_.commit);
    journal_.commit();
}

void Desk::put_by_hand(uint16_t client, const FIX::Message &message) {
    outbox_.put(Row{0, journal_.last_seq(), 0, session_of(client), BY_HAND, message.toString(), false});
}

// A message as it is told: the book's, unless the fault is planted that tells the venue's LastQty.
Bytes Desk::told(const Record &event, const Bytes &message) const {
    const bool report = event.kind() == JUBAFIYE_EVENT_VENUE_REPORT && message[0] == JUBAFIYE_MESSAGE_REPORT;
    if (options_.fault != Fault::LAST_QTY || !report) return message;
    return Record::read(message).number(JUBAFIYE_LAST_QTY, event.number(JUBAFIYE_LAST_QTY)).bytes();
}

// A venue's message that became no event that was taken: a line of DIR/desk-refused.tsv, number 0 if it became no event.
void Desk::log_refused(uint64_t seq, uint32_t refusal, const FIX::Message &message, const std::string &why) {
    const std::string path = options_.dir + "/desk-refused.tsv";
    const bool fresh = !std::ifstream(path).good();
    std::ofstream out(path, std::ios::app);
    if (fresh) out << "seq\trefusal\twhy\tmessage\n";
    std::string text = message.toString();
    for (char &c : text) c = c == '\1' ? '|' : c == '\t' || c == '\n' ? ' ' : c;
    out << seq << '\t' << refusal << '\t' << why << '\t' << text << '\n';
    if (!out.flush()) throw std::runtime_error("cannot write " + path);
}

} // namespace desk
