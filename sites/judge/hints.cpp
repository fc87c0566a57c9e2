#include "hints.hpp"

#include "../common/text.hpp"

#include <zarpalume.h>

#include <algorithm>
#include <array>
#include <charconv>
#include <cstdint>

namespace sites {

namespace {

bool is_digit(char each) {
    return each >= '0' && each <= '9';
}

bool has(std::string_view text, char each) {
    return text.find(each) != std::string_view::npos;
}

// A label may have blanks, and is the last field of its line.
std::string_view without_label(std::string_view line) {
    return line.starts_with("box\t") ? line.substr(0, line.rfind('\t')) : line;
}

bool begins_with_capital(std::string_view line) {
    return !line.empty() && line.front() >= 'A' && line.front() <= 'Z';
}

} // namespace

std::string line_hint(std::string_view line) {
    if (line.starts_with("\xEF\xBB\xBF")) {
        return "the file begins with a byte order mark; save it as ASCII, without one";
    }
    if (line.starts_with("\xFF\xFE") || line.starts_with("\xFE\xFF") || has(line, '\0')) {
        return "this looks like UTF-16; save the file as ASCII";
    }
    if (line.ends_with('\r')) {
        return "the line ends with CR LF; a sheet's lines end with LF alone (sed -i 's/\\r$//' FILE mends it)";
    }
    if (line.empty()) {
        return "a sheet has no empty lines";
    }
    if (line.starts_with('#') || line.starts_with("//") || line.starts_with(';')) {
        return "a sheet has no comments";
    }
    if (line.starts_with(' ') || line.starts_with('\t')) {
        return "a line begins with its word, and nothing stands before it";
    }
    if (has(without_label(line), ' ')) {
        return "fields are parted by one tab, and there is a blank here";
    }
    if (line.ends_with('\t')) {
        return "the line ends with a tab";
    }
    if (line.find("\t\t") != std::string_view::npos) {
        return "two tabs follow each other";
    }
    return begins_with_capital(line) ? "words are written in small letters" : "";
}

std::string number_problem(std::string_view field) {
    if (field.empty()) {
        return "a number is missing";
    }
    if (!std::all_of(field.begin(), field.end(), is_digit)) {
        return shown(field) + " is not a number" + (field.front() == '-' || field.front() == '+' ? ": it has a sign" : "");
    }
    if (field.size() > 1 && field.front() == '0') {
        return shown(field) + " begins with 0";
    }
    std::uint32_t value = 0;
    const auto [stop, error] = std::from_chars(field.data(), field.data() + field.size(), value);
    return error != std::errc{} || value > ZARPALUME_LARGEST_NUMBER ? shown(field) + " is too large" : "";
}

LabelProblem label_problem(std::string_view label) {
    if (label.empty()) {
        return {"the label is empty", 0};
    }
    const auto odd = std::find_if(label.begin(), label.end(), [](char each) { return each < ' ' || each > '~'; });
    if (odd != label.end()) {
        return {"the byte " + shown({odd, odd + 1}) + " is not printable ASCII", static_cast<std::size_t>(odd - label.begin())};
    }
    if (label.size() > ZARPALUME_LABEL_BYTES) {
        return {"the label has " + std::to_string(label.size()) + " bytes", ZARPALUME_LABEL_BYTES};
    }
    return {};
}

} // namespace sites
