// Reads a .debug_abbrev from standard input, and prints the code and the tag of each abbreviation of all its tables.
#include "dwarf_read.h"

#include <iostream>
#include <iterator>
#include <stdexcept>
#include <string>
#include <vector>

// A table, whose memory is freed with it.
class Table {
public:
    Table(const std::vector<uint8_t> &section, size_t offset) {
        dwarf_fault fault;
        if (dwarf_table_load(section.data(), section.size(), offset, &table, &fault) != DWARF_OK) {
            char text[DWARF_TEXT_ROOM];
            const char *what = dwarf_fault_string(&fault, text, sizeof text);
            throw std::runtime_error(what ? what : "out of memory");
        }
    }
    ~Table() { dwarf_table_free(&table); }
    Table(const Table &) = delete;
    Table &operator=(const Table &) = delete;

    const dwarf_abbreviation *begin() const { return table.abbreviations; }
    const dwarf_abbreviation *end() const { return begin() + table.measure.abbreviations; }
    size_t next() const { return table.measure.end; }

private:
    dwarf_table table;
};

int main() try {
    std::cin.exceptions(std::ios::badbit);
    std::vector<uint8_t> section{std::istreambuf_iterator<char>(std::cin), {}};
    for (size_t offset = 0; offset < section.size();) {
        Table table(section, offset);
        for (const auto &row : table) {
            dwarf_name tag = dwarf_tag_name(row.tag);
            std::cout << row.code << ' ' << std::string(tag.text, tag.len) << '\n';
        }
        offset = table.next();
    }
} catch (const std::exception &error) {
    std::cerr << "error: " << error.what() << '\n';
    return 1;
}
