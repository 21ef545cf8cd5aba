// QuickFIX as the venue and the client use it: sessions described in code, messages taken from a queue by the program's
// own loop, fields by their tags. The program that uses it runs in one thread; QuickFIX's threads only fill the queue.
#pragma once
#include <deque>
#include <mutex>
#include <quickfix/Application.h>
#include <quickfix/Message.h>
#include <quickfix/SessionSettings.h>
#include <string>
#include <vector>

struct Incoming {
    std::string own;  // our CompID of the session
    std::string peer; // the other side's
    FIX::Message message;
};

class Inbox : public FIX::NullApplication {
  public:
    void fromApp(const FIX::Message &message, const FIX::SessionID &session) noexcept override;
    void toApp(FIX::Message &message, const FIX::SessionID &session) noexcept override;
    void onLogon(const FIX::SessionID &session) override;
    bool take(Incoming &incoming);
    long resent(); // messages that the session sent again (PossDupFlag)
    long logons();

  private:
    std::mutex mutex;
    std::deque<Incoming> queue;
    long again = 0, logged_on = 0;
};

struct Line {
    std::string own, peer;
};

// Sessions of one role ("venue", "client"): acceptors on the port, or initiators to it.
FIX::SessionSettings sessions(const std::string &dir, const std::string &role, const std::vector<Line> &lines,
                              bool accepts, long port);

std::string field(const FIX::FieldMap &map, int tag); // "" if it is not there
FIX::Message message(const std::string &type);
// Sends by the session of the two CompIDs; the session keeps it if the peer is away.
void send(FIX::Message &message, const Line &line);
std::string time_now();
