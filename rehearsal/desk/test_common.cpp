// The tests' own tools.
#include "test.hpp"

#include <cstdio>
#include <cstdlib>
#include <fstream>
#include <sys/stat.h>
#include <sys/wait.h>
#include <unistd.h>

namespace test {

namespace {

int checks = 0, failures = 0, dirs = 0;

std::string qty(int units) {
    return std::to_string(units);
}

desk::Options options_of(const std::string &dir, desk::Fault fault, bool cancel_on_drop) {
    desk::Options options;
    options.dir = dir;
    options.fault = fault;
    options.sync = false;
    options.cancel_on_drop = cancel_on_drop;
    return options;
}

} // namespace

void check(bool holds, const char *what, const char *file, int line) {
    checks++;
    if (holds) return;
    failures++;
    fprintf(stderr, "%s:%d: does not hold: %s\n", file, line, what);
}

int made() {
    return checks;
}

int failed() {
    return failures;
}

FIX::Message fix(const std::string &fields) {
    std::string text = "8=FIX.4.4|9=0|" + fields + "|10=000|";
    for (char &c : text) c = c == '|' ? '\1' : c;
    return FIX::Message(text, false);
}

FIX::Message order(const std::string &cl_ord_id, const std::string &more) {
    return fix("35=D|11=" + cl_ord_id + "|55=WHEATH27|54=1|38=100|40=2|44=10.25" + more);
}

FIX::Message cancel(const std::string &cl_ord_id, const std::string &orig, const std::string &more) {
    return fix("35=F" + more + "|11=" + cl_ord_id + "|41=" + orig + "|55=WHEATH27|54=1");
}

FIX::Message replace(const std::string &cl_ord_id, const std::string &orig, int quantity) {
    return fix("35=G|11=" + cl_ord_id + "|41=" + orig + "|55=WHEATH27|54=1|40=2|44=10.25|38=" + qty(quantity));
}

FIX::Message report(const std::string &clordid, const std::string &types, int last, int cum, const std::string &more) {
    return fix("35=8|37=V1|17=X" + clordid + types + qty(cum) + "|11=" + clordid + "|150=" + types.substr(0, 1) +
               "|39=" + types.substr(1) + "|32=" + qty(last) + "|31=10|14=" + qty(cum) + "|6=10" + more);
}

std::string Sent::at(int tag) const {
    const std::string name = "|" + std::to_string(tag) + "=";
    const size_t found = text.find(name);
    if (found == std::string::npos) return "";
    const size_t from = found + name.size();
    return text.substr(from, text.find('|', from) - from);
}

void Wire::send(FIX::Message &message, const std::string &session) {
    if (cut == Cut::BEFORE_SENDING) _exit(CUT);
    for (int tag : {34, 52}) message.getHeader().removeField(tag);
    message.removeField(60);
    std::string text = message.toString();
    text = text.substr(text.find("\00135="), text.rfind("\00110=") + 1 - text.find("\00135="));
    for (char &c : text) c = c == '\1' ? '|' : c;
    sent.push_back({session, text});
    if (!file_.empty()) std::ofstream(file_, std::ios::app) << session << ' ' << text << '\n';
    if (cut == Cut::AFTER_SENDING) _exit(CUT);
}

std::vector<Sent> Wire::to(const std::string &session) const {
    std::vector<Sent> found;
    for (const Sent &one : sent)
        if (one.session == session) found.push_back(one);
    return found;
}

std::vector<Sent> read_sent(const std::string &file) {
    std::vector<Sent> found;
    std::ifstream in(file);
    for (std::string line; std::getline(in, line);)
        found.push_back({line.substr(0, line.find(' ')), line.substr(line.find(' ') + 1)});
    return found;
}

std::string fresh_dir() {
    static std::string base;
    if (base.empty()) {
        char name[] = "/tmp/desk-test-XXXXXX";
        if (!mkdtemp(name)) abort();
        base = name;
        static struct Remove {
            ~Remove() {
                if (getpid() == owner && system(("rm -rf " + base).c_str()) != 0) perror("rm");
            }
            pid_t owner;
        } remove{getpid()};
    }
    const std::string dir = base + "/" + std::to_string(++dirs);
    if (mkdir(dir.c_str(), 0700) != 0) abort();
    return dir;
}

Running::Running(const std::string &dir, desk::Fault fault, bool cancel_on_drop)
    : wire(dir + "/sent"), desk(options_of(dir, fault, cancel_on_drop), wire) {}

void cut_in(const std::function<void()> &step) {
    fflush(stderr);
    const pid_t child = fork();
    if (child == 0) {
        step();
        _exit(0);
    }
    int status = 0;
    waitpid(child, &status, 0);
    CHECK(WIFEXITED(status) && WEXITSTATUS(status) == CUT);
}

} // namespace test
