// The boxes, the actions' owners and the drawn arrows, read from a sheet's own lines: a verdict doesn't have them.
#pragma once

#include <zarpalume.hpp>

#include <array>
#include <bitset>
#include <cstddef>
#include <cstdint>
#include <optional>
#include <string>
#include <string_view>
#include <vector>

namespace sites {

// The label stands in the sheet, which has to outlive it.
struct Box {
    std::uint32_t id{};
    std::string_view label{};
};

// How the way from one box to another was drawn.
enum class Drawn : std::uint8_t { arrow, path, nothing };

// Meant for a sheet that isn't refused; of any other text it takes what it can.
class Drawing {
public:
    explicit Drawing(std::string_view sheet);

    const std::vector<Box> &boxes() const noexcept { return boxes_; }
    // The id of each action's box.
    const std::vector<std::uint32_t> &owners() const noexcept { return owners_; }
    Drawn drawn(const zarpalume::Arrow &arrow) const noexcept;
    // Where a box of this id stands among the boxes.
    std::optional<std::size_t> position(std::uint32_t id) const noexcept;
    // The box's label as it can stand in a sentence; with the id where the label doesn't tell which box it is.
    std::string name(std::uint32_t id) const;
    // Its boxes' names, with an arrow between them.
    std::string name(const zarpalume::Arrow &arrow) const { return name(arrow.source) + " -> " + name(arrow.target); }

private:
    using Flags = std::array<std::bitset<zarpalume::most_boxes>, zarpalume::most_boxes>;

    void read(std::string_view line);
    void draw(std::uint32_t source, std::uint32_t target) noexcept;
    void follow_arrows() noexcept;

    std::vector<Box> boxes_;
    std::vector<std::uint32_t> owners_;
    Flags arrows_{};
    Flags paths_{};
};

} // namespace sites
