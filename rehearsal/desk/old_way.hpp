// The old way: a desk that books by the ClOrdID as it comes, to be seen beside the book. It keeps nothing through a crash.
#ifndef REHEARSAL_OLD_WAY_HPP
#define REHEARSAL_OLD_WAY_HPP

#include <map>
#include <set>

#include "desk.hpp"

namespace desk {

class OldWay : public Taker {
public:
    OldWay(const std::string &dir, Sessions &sessions) : dir_(dir), sessions_(sessions) {}

    void take(const FIX::Message &message, const std::string &session) override;
    void logged_on(const std::string &) override {}
    void dropped(const std::string &) override {}
    void write_sheets() override;

private:
    // One for each ClOrdID that went to the venue, which is where it goes wrong.
    struct Line {
        FIX::Message request; // the client's, whose terms these are
        std::string session;
        uint64_t ordered, cum;
        char status;
    };

    void take_request(const FIX::Message &message, const std::string &session);
    void take_report(const FIX::Message &message);
    void to_venue(const std::string &type, const std::string &clordid, const std::string &orig, const Line &line);
    void to_client(const FIX::Message &report, const Line &line);

    std::string dir_;
    Sessions &sessions_;
    std::map<std::string, Line> lines_;                                     // by ClOrdID at the venue
    std::map<std::pair<std::string, std::string>, std::string> at_venue_;  // of a session and its ClOrdID
    std::map<std::string, int> amendments_;                                // of an order's name
    std::set<std::string> exec_ids_;
    int booked_ = 0;
};

} // namespace desk

#endif
