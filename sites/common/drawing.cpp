#include "drawing.hpp"

#include "text.hpp"

#include <algorithm>
#include <charconv>

namespace sites {

namespace {

// A line's first three fields; a label is the last of its line.
struct Fields {
    std::string_view word, second, third;

    explicit Fields(std::string_view line) noexcept {
        const std::size_t first = std::min(line.find('\t'), line.size());
        const std::size_t next = std::min(line.find('\t', first + 1), line.size());
        word = line.substr(0, first);
        second = line.substr(std::min(first + 1, next), next - std::min(first + 1, next));
        third = line.substr(std::min(next + 1, line.size()));
    }
};

// 0 for what is no number, which a sheet that isn't refused doesn't have.
std::uint32_t number(std::string_view field) noexcept {
    std::uint32_t value = 0;
    std::from_chars(field.data(), field.data() + field.size(), value);
    return value;
}

// Whether a label can't be taken for a sentence.
bool is_plain(std::string_view label) noexcept {
    constexpr std::string_view plain = "ABCDEFGHIJKLMNOPQRSTUVWXYZabcdefghijklmnopqrstuvwxyz0123456789_-./+ ";
    return label.find_first_not_of(plain) == std::string_view::npos && !label.starts_with(' ') && !label.ends_with(' ');
}

} // namespace

Drawing::Drawing(std::string_view sheet) {
    // Nothing of the drawing follows the first view.
    while (!sheet.empty() && !sheet.starts_with("view\t")) {
        const std::string_view line = take_line(sheet);
        // Most lines are steps, and have nothing to do with it.
        if (!line.starts_with("go\t")) {
            read(line);
        }
    }
    follow_arrows();
}

void Drawing::read(std::string_view line) {
    const Fields fields{line};
    if (fields.word == "box") {
        if (boxes_.size() < zarpalume::most_boxes) {
            boxes_.push_back({number(fields.second), fields.third});
        }
    } else if (fields.word == "act") {
        owners_.push_back(number(fields.second));
    } else if (fields.word == "flow" || fields.word == "both") {
        draw(number(fields.second), number(fields.third));
        if (fields.word == "both") {
            draw(number(fields.third), number(fields.second));
        }
    }
}

void Drawing::draw(std::uint32_t source, std::uint32_t target) noexcept {
    const auto from = position(source);
    const auto to = position(target);
    if (from && to) {
        arrows_[*from].set(*to);
    }
}

// Warshall: after each round the paths are those whose inner boxes were looked at.
void Drawing::follow_arrows() noexcept {
    paths_ = arrows_;
    for (std::size_t inner = 0; inner < boxes_.size(); inner++) {
        for (std::size_t from = 0; from < boxes_.size(); from++) {
            if (paths_[from].test(inner)) {
                paths_[from] |= paths_[inner];
            }
        }
    }
}

Drawn Drawing::drawn(const zarpalume::Arrow &arrow) const noexcept {
    const auto from = position(arrow.source);
    const auto to = position(arrow.target);
    if (!from || !to) {
        return Drawn::nothing;
    }
    if (arrows_[*from].test(*to)) {
        return Drawn::arrow;
    }
    return paths_[*from].test(*to) ? Drawn::path : Drawn::nothing;
}

std::optional<std::size_t> Drawing::position(std::uint32_t id) const noexcept {
    const auto found = std::find_if(boxes_.begin(), boxes_.end(), [id](const Box &box) { return box.id == id; });
    if (found == boxes_.end()) {
        return std::nullopt;
    }
    return static_cast<std::size_t>(found - boxes_.begin());
}

std::string Drawing::name(std::uint32_t id) const {
    const auto at = position(id);
    const std::string_view label = at ? boxes_[*at].label : "";
    const auto same = std::count_if(boxes_.begin(), boxes_.end(), [&](const Box &box) { return box.label == label; });
    return (is_plain(label) ? std::string{label} : shown(label)) + (same == 1 ? "" : " (" + std::to_string(id) + ")");
}

} // namespace sites
