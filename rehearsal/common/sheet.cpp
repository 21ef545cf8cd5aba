// Writing sheets.
#include "sheet.hpp"
#include <cstdio>
#include <fstream>
#include <stdexcept>

Sheet::Sheet(const std::string &columns) : width(0) {
    std::istringstream names(columns);
    std::vector<std::string> cells;
    for (std::string name; names >> name;)
        cells.push_back(name);
    width = cells.size();
    row(cells);
}

void Sheet::row(const std::vector<std::string> &cells) {
    if (cells.size() != width)
        throw std::logic_error("a row of another width");
    for (size_t i = 0; i < cells.size(); i++)
        lines << (i ? "\t" : "") << cells[i];
    lines << "\n";
}

void Sheet::write(const std::string &path) const { write_file(path, lines.str()); }

void write_file(const std::string &path, const std::string &content) {
    std::string beside = path + ".part";
    std::ofstream out(beside);
    out << content;
    out.close();
    if (!out || std::rename(beside.c_str(), path.c_str()) != 0)
        throw std::runtime_error("cannot write " + path);
}
