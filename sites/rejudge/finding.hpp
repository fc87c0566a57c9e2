// What is found about one name: a line of the table.
#pragma once

#include "names.hpp"
#include "store.hpp"

#include <array>
#include <cstddef>
#include <cstdint>
#include <optional>
#include <string>
#include <string_view>

namespace sites {

enum class Outcome : std::uint8_t { accepted, broken, refused, unread, skipped };
inline constexpr std::size_t outcome_count = static_cast<std::size_t>(Outcome::skipped) + 1;

// The stored verdict: same as now, changed, none there, new (none was there, and now one is), or not to be read or written.
enum class Stored : std::uint8_t { nothing, same, changed, none, written, unread, unwritten };
inline constexpr std::size_t stored_count = static_cast<std::size_t>(Stored::unwritten) + 1;

// The needed arrows laid beside the drawing, and the reach.
struct Counts {
    std::size_t needed = 0;
    std::size_t not_drawn = 0;
    std::size_t no_path = 0;
    std::size_t reach = 0;
};

// The table's columns, by the names of the header.
inline constexpr std::array<std::string_view, 10> columns{"path", "outcome", "place", "needed", "undrawn", "lost", "reach", "stored", "change", "lost arrows"};
using Row = std::array<std::string, columns.size()>;

struct Finding {
    std::string path{};
    Outcome outcome = Outcome::unread;
    std::string place = "-";
    std::optional<Counts> counts{};
    Stored stored = Stored::nothing;
    std::string change = "-";
    // The needed arrows with no drawn path, by their boxes' names.
    std::string lost_arrows = "-";
};

// Judges the sheet, if it is one, and compares the verdict with the stored one; stores it where there is a store.
Finding find(const Name &name, const std::optional<Store> &store);

Row row(const Finding &finding);

// 0 where all is well, 1 where somebody has to look, 2 where something could not be read or written.
int status(const Finding &finding);

} // namespace sites
