// Lines out of a text, and a text into a line.
#pragma once

#include <algorithm>
#include <cstddef>
#include <string>
#include <string_view>

namespace sites {

// The text's first line, without its end, which is taken off with it.
inline std::string_view take_line(std::string_view &text, char line_end = '\n') noexcept {
    const std::size_t end = std::min(text.find(line_end), text.size());
    const std::string_view line = text.substr(0, end);
    text.remove_prefix(std::min(end + 1, text.size()));
    return line;
}

// On one line and in one field: tabs, newlines and backslashes as \t, \n and \\, other controls and what isn't UTF-8 as \xHH for each byte.
std::string escaped(std::string_view text);

// Part of a sheet as it can stand in a message: quoted, what isn't printable ASCII escaped, and cut where it is longer than a label.
std::string shown(std::string_view text);

} // namespace sites
