// A sheet and its verdict in Graphviz's language.
#pragma once

#include <zarpalume.hpp>

#include <cstdint>
#include <string>
#include <string_view>

namespace sites {

// All arrows, or only the needed ones with no drawn path, and their boxes.
enum class Shown : std::uint8_t { everything, lost };

std::string dot(std::string_view title, std::string_view sheet, const zarpalume::Verdict &verdict, Shown shown);

} // namespace sites
