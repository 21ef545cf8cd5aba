// The command line: `--name value`, each name known beforehand.
#pragma once
#include <map>
#include <set>
#include <string>
#include <vector>

class Options {
  public:
    // Ends the program with status 2 if an argument is not among the names.
    Options(int argc, char **argv, const std::set<std::string> &names);
    std::string text(const std::string &name) const;
    std::string text(const std::string &name, const std::string &otherwise) const;
    long number(const std::string &name) const;
    long number(const std::string &name, long otherwise) const;
    // Every value of an option that may be given several times.
    const std::vector<std::string> &all(const std::string &name) const;

  private:
    std::string program;
    std::map<std::string, std::vector<std::string>> values;
    [[noreturn]] void fail(const std::string &why) const;
};
