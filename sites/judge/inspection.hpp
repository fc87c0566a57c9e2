// A sheet looked through once more, for what a verdict doesn't say: which bytes of a refused one are at fault, and the tables of a good one.
#pragma once

#include <zarpalume.hpp>

#include <cstddef>
#include <cstdint>
#include <optional>
#include <string>
#include <string_view>
#include <vector>

namespace sites {

// Why and where a sheet is refused.
struct Fault {
    zarpalume::Refusal refusal{};
    // Where to look, both counted from 1, the column in bytes. A fault of the whole text has a place, too.
    std::size_t line = 1;
    std::size_t column = 1;
    std::string message{};
    // What should stand there, and what may have happened; either may be empty.
    std::string due{};
    std::string hint{};
};

// Boxes are taken by their position.
struct Tables {
    std::size_t states = 0;
    std::size_t actions = 0;
    std::size_t boxes = 0;
    std::size_t first_view_line = 0;
    std::vector<std::uint32_t> nexts{};
    std::vector<std::uint32_t> outputs{};
    std::vector<std::uint32_t> views{};

    std::uint32_t next(std::size_t state, std::size_t action) const { return nexts.at(state * actions + action); }
    std::uint32_t output(std::size_t state, std::size_t action) const { return outputs.at(state * actions + action); }
    std::uint32_t view(std::size_t box, std::size_t state) const { return views.at(box * states + state); }
    // The line on which a view's class stands.
    std::size_t view_line(std::size_t box, std::size_t state) const noexcept { return first_view_line + box * states + state; }
};

// The tables are whole where there is no fault.
struct Inspection {
    std::optional<Fault> fault{};
    Tables tables{};
};

Inspection inspect(std::string_view sheet);

} // namespace sites
