// QuickFIX's side of the desk: its callbacks, its sessions and their settings.
#ifndef REHEARSAL_APPLICATION_HPP
#define REHEARSAL_APPLICATION_HPP

#include <mutex>

#include <quickfix/Application.h>
#include <quickfix/SessionSettings.h>

#include "desk.hpp"

namespace desk {

// Hands messages to the taker, one at a time, and sends for it.
//
// QuickFIX stores the number of a message that came in after fromApp has returned, and a message that goes out before it is
// sent. So a message that the journal has may come again after a crash, and is never lost; one that was handed over is sent by
// the session again, even if the connection was down.
class Application : public FIX::Application, public Sessions {
public:
    void serve(Taker &taker) { taker_ = &taker; }
    // From now on a session that drops is the desk's own end.
    void close();

    void onCreate(const FIX::SessionID &) override {}
    void onLogon(const FIX::SessionID &session) override;
    void onLogout(const FIX::SessionID &session) override;
    void toAdmin(FIX::Message &, const FIX::SessionID &) override {}
    void toApp(FIX::Message &, const FIX::SessionID &) noexcept override {}
    void fromAdmin(const FIX::Message &, const FIX::SessionID &) noexcept override {}
    void fromApp(const FIX::Message &message, const FIX::SessionID &session) noexcept override;

    bool up(const std::string &session) override;
    void send(FIX::Message &message, const std::string &session) override;

private:
    std::mutex one_at_a_time_;
    Taker *taker_ = nullptr;
    bool closing_ = false;
};

// The settings of the acceptor for clients 1 to coops, and of the initiator to the venue's two sessions.
FIX::SessionSettings acceptor_settings(const std::string &dir, int client_port, int coops);
FIX::SessionSettings initiator_settings(const std::string &dir, int venue_port, int drop_port);

} // namespace desk

#endif
