// What is other in a verdict than in the stored one.
#pragma once

#include <string>
#include <string_view>

namespace sites {

// The stored lines that are gone with a minus, those that came with a plus, in one field.
std::string change(std::string_view stored, std::string_view now);

} // namespace sites
