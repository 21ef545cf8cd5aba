// FIX 4.4 messages turned into event records: what a client or a venue says, as the book takes it (docs/SCOPE.md, Events).
#ifndef REHEARSAL_TURN_HPP
#define REHEARSAL_TURN_HPP

#include <stdexcept>

#include <quickfix/Message.h>

#include "record.hpp"

namespace desk {

// The number of the one venue.
const uint16_t VENUE_NUMBER = 1;

// A message that does not become an event: the tag that is at fault, and why.
struct TurnedAway : std::runtime_error {
    TurnedAway(int tag, const std::string &why) : std::runtime_error("tag " + std::to_string(tag) + " " + why), tag(tag) {}
    int tag;
};

// Of a client: NewOrderSingle(D), OrderCancelRequest(F), OrderCancelReplaceRequest(G).
Record booking(const FIX::Message &message, uint16_t client, const std::string &name);
Record cancel(const FIX::Message &message, uint16_t client);
Record replace(const FIX::Message &message, uint16_t client);

// Of the venue: ExecutionReport(8), OrderCancelReject(9), BusinessMessageReject(j).
Record venue_report(const FIX::Message &message);
Record cancel_reject(const FIX::Message &message, bool as_it_comes = false);
Record send_failed(const FIX::Message &message);

// The gateway's own.
Record send_again(const std::string &downstream);
Record gateway_cancel(const std::string &name);

// PossDupFlag(43) or PossResend(97).
bool redelivered(const FIX::Message &message);

std::string message_type(const FIX::Message &message);

// A field's value, empty if it is absent.
std::string value(const FIX::Message &message, int tag);

} // namespace desk

#endif
