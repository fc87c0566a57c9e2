// Graphviz's markup for labels.
#pragma once

#include <string>
#include <string_view>

namespace sites {

// A text as it has to stand in markup. What isn't printable ASCII can only come from a file's name or a refused sheet, and is a question mark.
std::string marked_up(std::string_view text);

// The value of an attribute, which has no quotes in it.
std::string quoted(std::string_view text);

std::string bold(std::string_view marked);

// A row of a table, of this size and colour.
std::string row(std::string_view size, std::string_view colour, std::string_view marked);

std::string table(std::string_view rows);

// The label of a box or of the whole graph.
std::string label(std::string_view rows);

// What is shown where the pointer rests, as one attribute more.
std::string tooltip(std::string_view text);

} // namespace sites
