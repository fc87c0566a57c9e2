// A verdict in words, with the boxes' labels.
#pragma once

#include <zarpalume.hpp>

#include <string>
#include <string_view>

namespace sites {

// The name is that of the sheet, as it can be shown.
std::string explained(std::string_view name, std::string_view sheet, const zarpalume::Verdict &verdict);

} // namespace sites
