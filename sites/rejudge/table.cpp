#include "table.hpp"

#include "../common/text.hpp"

#include <algorithm>
#include <cstdio>
#include <unistd.h>

namespace sites {

namespace {

// Wide enough for what is usual; a field that is wider pushes the rest of its line.
constexpr std::array<std::size_t, columns.size()> usual_widths{0, 8, 18, 6, 7, 4, 5, 9, 6, 0};

// How many columns of a terminal a text takes: bytes within a character don't count.
std::size_t width(std::string_view text) {
    return static_cast<std::size_t>(std::count_if(text.begin(), text.end(), [](char each) { return (static_cast<unsigned char>(each) & 0xC0) != 0x80; }));
}

} // namespace

Table::Table(const std::vector<Name> &names) : aligned_{::isatty(STDOUT_FILENO) == 1}, widths_{usual_widths} {
    for (const Name &name : names) {
        widths_.front() = std::max(widths_.front(), width(escaped(name.path)));
    }
}

void Table::print_header() const {
    Row names;
    std::copy(columns.begin(), columns.end(), names.begin());
    print(names);
}

void Table::print(const Row &row) const {
    std::string line;
    for (std::size_t column = 0; column < row.size(); column++) {
        line += row[column];
        const bool last = column + 1 == row.size();
        if (aligned_ && !last) {
            line.append(std::max(widths_[column], width(row[column])) - width(row[column]) + 2, ' ');
        } else {
            line += last ? '\n' : '\t';
        }
    }
    std::fwrite(line.data(), 1, line.size(), stdout);
}

} // namespace sites
