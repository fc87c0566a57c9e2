// What may have happened to a line or a field that is refused.
#pragma once

#include <string>
#include <string_view>

namespace sites {

// What the line's bytes suggest; empty where they suggest nothing.
std::string line_hint(std::string_view line);

// Why a field is no number; empty where it is one.
std::string number_problem(std::string_view field);

// Why a text is no label, and at which of its bytes; the problem is empty where it is one.
struct LabelProblem {
    std::string problem{};
    std::size_t byte = 0;
};

LabelProblem label_problem(std::string_view label);

} // namespace sites
