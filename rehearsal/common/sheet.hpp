// A tab-separated sheet, or a small file of numbers for the driver, written whole or not at all.
#pragma once
#include <sstream>
#include <string>
#include <vector>

class Sheet {
  public:
    // The first line: the columns' names, separated by blanks.
    explicit Sheet(const std::string &columns);
    void row(const std::vector<std::string> &cells);
    void write(const std::string &path) const;

  private:
    size_t width;
    std::ostringstream lines;
};

// Writes a file beside its place and moves it there.
void write_file(const std::string &path, const std::string &content);
