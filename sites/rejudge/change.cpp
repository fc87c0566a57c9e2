#include "change.hpp"

#include "../common/text.hpp"

#include <algorithm>
#include <vector>

namespace sites {

namespace {

std::vector<std::string_view> lines_of(std::string_view text) {
    std::vector<std::string_view> result;
    while (!text.empty()) {
        result.push_back(take_line(text));
    }
    return result;
}

// The lines of one text that the other doesn't have, each with a mark before it.
void add_missing(std::string &result, char mark, std::string_view text, std::string_view other) {
    const auto others = lines_of(other);
    for (const std::string_view each : lines_of(text)) {
        if (std::find(others.begin(), others.end(), each) == others.end()) {
            // Nothing after a mark would look like no change.
            std::string shown{each.empty() ? "an empty line" : each};
            std::replace(shown.begin(), shown.end(), '\t', ' ');
            result.append(result.empty() ? "" : ", ").append(1, mark).append(escaped(shown));
        }
    }
}

} // namespace

std::string change(std::string_view stored, std::string_view now) {
    std::string result;
    add_missing(result, '-', stored, now);
    add_missing(result, '+', now, stored);
    return result.empty() ? "the same lines in other bytes" : result;
}

} // namespace sites
