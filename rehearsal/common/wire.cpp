// QuickFIX sessions for the venue and the client.
#include "wire.hpp"
#include <quickfix/FieldConvertors.h>
#include <quickfix/Session.h>
#include <sstream>

void Inbox::fromApp(const FIX::Message &message, const FIX::SessionID &session) noexcept {
    std::lock_guard<std::mutex> lock(mutex);
    queue.push_back({session.getSenderCompID().getValue(), session.getTargetCompID().getValue(), message});
}

void Inbox::toApp(FIX::Message &message, const FIX::SessionID &) noexcept {
    std::lock_guard<std::mutex> lock(mutex);
    again += field(message.getHeader(), FIX::FIELD::PossDupFlag) == "Y";
}

void Inbox::onLogon(const FIX::SessionID &) {
    std::lock_guard<std::mutex> lock(mutex);
    logged_on++;
}

bool Inbox::take(Incoming &incoming) {
    std::lock_guard<std::mutex> lock(mutex);
    if (queue.empty())
        return false;
    incoming = queue.front();
    queue.pop_front();
    return true;
}

long Inbox::resent() {
    std::lock_guard<std::mutex> lock(mutex);
    return again;
}

long Inbox::logons() {
    std::lock_guard<std::mutex> lock(mutex);
    return logged_on;
}

FIX::SessionSettings sessions(const std::string &dir, const std::string &role, const std::vector<Line> &lines,
                              bool accepts, long port) {
    std::stringstream text;
    // The session's day is the week: with StartTime and EndTime alone QuickFIX begins all numbers again at midnight.
    text << "[DEFAULT]\nBeginString=FIX.4.4\nStartDay=sunday\nStartTime=00:00:00\nEndDay=sunday\nEndTime=00:00:00\n"
         << "HeartBtInt=5\nReconnectInterval=1\n"
         << "UseDataDictionary=N\nResetOnLogon=N\nPersistMessages=Y\nSendRedundantResendRequests=N\nSocketNodelay=Y\n"
         << "LogonTimeout=5\nCheckLatency=N\nFileStorePath=" << dir << "/store-" << role << "\nFileLogPath=" << dir
         << "/log-" << role << "\nConnectionType=" << (accepts ? "acceptor" : "initiator") << "\n";
    if (accepts)
        text << "SocketAcceptPort=" << port << "\nSocketReuseAddress=Y\n";
    else
        text << "SocketConnectHost=127.0.0.1\nSocketConnectPort=" << port << "\n";
    for (const Line &line : lines)
        text << "[SESSION]\nSenderCompID=" << line.own << "\nTargetCompID=" << line.peer << "\n";
    return FIX::SessionSettings(text);
}

std::string field(const FIX::FieldMap &map, int tag) { return map.isSetField(tag) ? map.getField(tag) : ""; }

FIX::Message message(const std::string &type) {
    FIX::Message made;
    made.getHeader().setField(FIX::FIELD::BeginString, "FIX.4.4");
    made.getHeader().setField(FIX::FIELD::MsgType, type);
    return made;
}

void send(FIX::Message &message, const Line &line) {
    FIX::Session::sendToTarget(message, FIX::SessionID("FIX.4.4", line.own, line.peer));
}

std::string time_now() { return FIX::UtcTimeStampConvertor::convert(FIX::UtcTimeStamp(), 3); }
