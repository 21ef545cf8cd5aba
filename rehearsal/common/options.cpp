// Reading the command line.
#include "options.hpp"
#include <cstdlib>
#include <iostream>

Options::Options(int argc, char **argv, const std::set<std::string> &names) : program(argv[0]) {
    for (int i = 1; i < argc; i += 2) {
        std::string name = argv[i];
        if (name.compare(0, 2, "--") != 0 || !names.count(name.substr(2)))
            fail("unknown option " + name);
        if (i + 1 == argc)
            fail(name + " needs a value");
        values[name.substr(2)].push_back(argv[i + 1]);
    }
}

void Options::fail(const std::string &why) const {
    std::cerr << program << ": " << why << "\n";
    std::exit(2);
}

const std::vector<std::string> &Options::all(const std::string &name) const {
    auto found = values.find(name);
    if (found == values.end())
        fail("--" + name + " is missing");
    return found->second;
}

std::string Options::text(const std::string &name) const { return all(name).back(); }

std::string Options::text(const std::string &name, const std::string &otherwise) const {
    return values.count(name) ? text(name) : otherwise;
}

long Options::number(const std::string &name) const {
    std::string value = text(name);
    char *end = nullptr;
    long number = std::strtol(value.c_str(), &end, 10);
    if (value.empty() || *end)
        fail("--" + name + " is no number: " + value);
    return number;
}

long Options::number(const std::string &name, long otherwise) const {
    return values.count(name) ? number(name) : otherwise;
}
