// QuickFIX's callbacks and settings.
#include "application.hpp"

#include <cstdio>
#include <functional>
#include <sstream>
#include <unistd.h>

#include <quickfix/Session.h>

namespace desk {

namespace {

FIX::SessionID id_of(const std::string &session) {
    return FIX::SessionID("FIX.4.4", "GATEWAY", session);
}

std::string peer(const FIX::SessionID &session) {
    return session.getTargetCompID().getValue();
}

// After an error the desk ends at once: what is on the disk decides what it was, and the next start finds it.
void run_or_end(const std::function<void()> &step) {
    try {
        step();
    } catch (const std::exception &why) {
        fprintf(stderr, "desk: %s\n", why.what());
        _exit(1);
    }
}

// The session's day is the week: with StartTime and EndTime alone QuickFIX resets all numbers at each midnight.
std::string defaults(const std::string &dir, const std::string &connection) {
    return "[DEFAULT]\nConnectionType=" + connection + "\nBeginString=FIX.4.4\nSenderCompID=GATEWAY\nFileStorePath=" + dir +
           "/store-desk\nFileLogPath=" + dir + "/log-desk\n" +
           "StartDay=sunday\nStartTime=00:00:00\nEndDay=sunday\nEndTime=00:00:00\nHeartBtInt=5\nReconnectInterval=1\n"
           "UseDataDictionary=N\nResetOnLogon=N\nResetOnLogout=N\nResetOnDisconnect=N\nPersistMessages=Y\n"
           "SendRedundantResendRequests=N\nCheckLatency=N\nSocketNodelay=Y\nSocketReuseAddress=Y\n";
}

} // namespace

void Application::close() {
    std::lock_guard<std::mutex> lock(one_at_a_time_);
    closing_ = true;
}

void Application::onLogon(const FIX::SessionID &session) {
    std::lock_guard<std::mutex> lock(one_at_a_time_);
    run_or_end([&] { taker_->logged_on(peer(session)); });
}

void Application::onLogout(const FIX::SessionID &session) {
    std::lock_guard<std::mutex> lock(one_at_a_time_);
    if (!closing_) run_or_end([&] { taker_->dropped(peer(session)); });
}

void Application::fromApp(const FIX::Message &message, const FIX::SessionID &session) noexcept {
    std::lock_guard<std::mutex> lock(one_at_a_time_);
    run_or_end([&] { taker_->take(message, peer(session)); });
}

bool Application::up(const std::string &session) {
    FIX::Session *found = FIX::Session::lookupSession(id_of(session));
    return found && found->isLoggedOn();
}

void Application::send(FIX::Message &message, const std::string &session) {
    FIX::Session::sendToTarget(message, id_of(session));
}

FIX::SessionSettings acceptor_settings(const std::string &dir, int client_port, int coops) {
    std::stringstream text(defaults(dir, "acceptor"), std::ios::in | std::ios::out | std::ios::ate);
    for (int client = 1; client <= coops; client++)
        text << "[SESSION]\nTargetCompID=" << session_of(uint16_t(client)) << "\nSocketAcceptPort=" << client_port << "\n";
    return FIX::SessionSettings(text);
}

FIX::SessionSettings initiator_settings(const std::string &dir, int venue_port, int drop_port) {
    std::stringstream text(defaults(dir, "initiator"), std::ios::in | std::ios::out | std::ios::ate);
    for (const auto &session : {std::make_pair(VENUE, venue_port), std::make_pair(VENUE_DROP, drop_port)})
        text << "[SESSION]\nTargetCompID=" << session.first << "\nSocketConnectHost=127.0.0.1\nSocketConnectPort="
             << session.second << "\n";
    return FIX::SessionSettings(text);
}

} // namespace desk
