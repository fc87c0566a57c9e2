// Names whose verdicts have one file take turns, so that the table is the same every time.
#pragma once

#include "names.hpp"

#include <cstddef>
#include <optional>
#include <vector>

namespace sites {

// For each piece of work the one that has to be done before it, if there is one: it always has a lower number.
using Turns = std::vector<std::optional<std::size_t>>;

// Each name after the one before it whose verdict has the same file.
Turns turns(const std::vector<Name> &names);

} // namespace sites
