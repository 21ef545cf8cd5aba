// The list of habits.
#include "habits.hpp"
#include <sstream>
#include <stdexcept>

const std::set<std::string> &Habits::known() {
    static const std::set<std::string> names = {"incident", "repeated", "late",    "drop",   "crossing", "rejects",
                                                "short",    "doneday",  "unknown", "resend", "pending"};
    return names;
}

Habits::Habits(const std::string &names) {
    std::istringstream list(names);
    for (std::string name; std::getline(list, name, ',');) {
        if (name == "all")
            on = known();
        else if (known().count(name))
            on.insert(name);
        else if (name != "none")
            throw std::runtime_error("no such habit: " + name);
    }
}
