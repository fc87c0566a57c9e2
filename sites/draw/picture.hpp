// Pictures by Graphviz's dot.
#pragma once

#include <string>
#include <string_view>

namespace sites {

// Whether there is a program of this name to run.
bool on_path(std::string_view program);

// Draws the graph into a file whose ending says the picture's kind; gives the problem, empty where there is none.
// The file is replaced when the picture is whole.
std::string draw_picture(const std::string &graph, const std::string &picture);

} // namespace sites
