// The venue's habits, each a switch; docs/REHEARSAL.md says what each does.
#pragma once
#include <set>
#include <string>

class Habits {
  public:
    // A list of names with commas, `all` or `none`; throws on a name that is none.
    explicit Habits(const std::string &names);
    bool has(const std::string &name) const { return on.count(name) != 0; }
    static const std::set<std::string> &known();

  private:
    std::set<std::string> on;
};
