// The verdict on a sheet, taken apart, and drawings that are edited, for C++20. Header only: no exceptions, no allocation, no state.
#ifndef ZARPALUME_HPP
#define ZARPALUME_HPP

#if __cplusplus < 202002L && (!defined(_MSVC_LANG) || _MSVC_LANG < 202002L)
#error "zarpalume.hpp needs C++20; with g++ and clang++ it is -std=c++20"
#else

#include "zarpalume.h"

#include <algorithm>
#include <array>
#include <charconv>
#include <cstddef>
#include <cstdint>
#include <initializer_list>
#include <iterator>
#include <optional>
#include <span>
#include <string_view>
#include <system_error>
#include <type_traits>
#include <utility>

namespace zarpalume {

inline constexpr std::size_t most_boxes = ZARPALUME_BOXES;
inline constexpr std::size_t most_arrows = ZARPALUME_PAIRS;
inline constexpr std::size_t most_edits = ZARPALUME_EDITS;

// Mismatched: the library has given no verdict, since this header is that of another one. The sheet isn't at fault.
enum class Outcome : std::uint8_t { accepted, broken, refused, mismatched };

enum class Condition : std::uint8_t { output, respect, step };

// The condition as the verdict's text has it.
constexpr std::string_view word(Condition condition) noexcept {
    switch (condition) {
    case Condition::output:
        return "output";
    case Condition::respect:
        return "respect";
    case Condition::step:
        return "step";
    }
    return {};
}

// The first broken place. The box is an id, and for output the action's box; respect has no t.
struct Place {
    Condition condition{};
    std::uint32_t box{};
    std::uint32_t action{};
    std::uint32_t s{};
    std::optional<std::uint32_t> t{};

    friend constexpr bool operator==(const Place &, const Place &) noexcept = default;
};

struct Refusal {
    std::uint32_t number{};
    std::uint32_t line{};

    friend constexpr bool operator==(const Refusal &, const Refusal &) noexcept = default;
};

// An arrow, by the ids of its boxes.
struct Arrow {
    std::uint32_t source{};
    std::uint32_t target{};

    friend constexpr bool operator==(const Arrow &, const Arrow &) noexcept = default;
};

// The longest bench run that a tester of this box needs.
struct Depth {
    std::uint32_t box{};
    std::uint32_t depth{};

    friend constexpr bool operator==(const Depth &, const Depth &) noexcept = default;
};

// A list in fixed room; what has no room is left out, and the library has no more than fits.
template <typename Item, std::size_t room>
class List {
public:
    constexpr void add(const Item &item) noexcept {
        if (count_ < room) {
            items_[count_++] = item;
        }
    }

    constexpr std::span<const Item> items() const noexcept { return std::span{items_}.first(count_); }
    constexpr const Item *begin() const noexcept { return items_.data(); }
    constexpr const Item *end() const noexcept { return items_.data() + count_; }
    constexpr std::size_t size() const noexcept { return count_; }
    constexpr bool empty() const noexcept { return count_ == 0; }

    friend constexpr bool operator==(const List &, const List &) noexcept = default;

private:
    std::array<Item, room> items_{};
    std::size_t count_ = 0;
};

namespace detail {

// The part of the text before the next mark, which is taken off; all that is left where there is none.
constexpr std::string_view take(std::string_view &text, char mark) noexcept {
    const std::size_t end = std::min(text.find(mark), text.size());
    const std::string_view part = text.substr(0, end);
    text.remove_prefix(std::min(end + 1, text.size()));
    return part;
}

inline std::optional<std::uint32_t> number(std::string_view field) noexcept {
    std::uint32_t value = 0;
    const char *const end = field.data() + field.size();
    const auto [stop, error] = std::from_chars(field.data(), end, value);
    if (error != std::errc{} || stop != end) {
        return std::nullopt;
    }
    return value;
}

// The next field of a line as a number; 0 for anything else, which the library does not write.
inline std::uint32_t take_number(std::string_view &line) noexcept {
    return number(take(line, '\t')).value_or(0);
}

template <typename Type>
inline constexpr bool is_byte = std::is_same_v<Type, char> || std::is_same_v<Type, unsigned char> || std::is_same_v<Type, char8_t> || std::is_same_v<Type, std::byte>;

// What a vector, a span or the like has its bytes in.
template <typename Bytes>
using Element = std::remove_cvref_t<decltype(*std::data(std::declval<const Bytes &>()))>;

// A number's decimal digits.
class Digits {
public:
    explicit Digits(std::uint32_t value) noexcept {
        const char *const end = std::to_chars(room_.data(), room_.data() + room_.size(), value).ptr;
        length_ = static_cast<std::size_t>(end - room_.data());
    }

    std::string_view text() const noexcept { return {room_.data(), length_}; }

private:
    std::array<char, 10> room_{};
    std::size_t length_ = 0;
};

// Writes a line of a sheet.
template <std::output_iterator<char> Out>
Out put_line(Out out, std::string_view word, std::initializer_list<std::string_view> fields) {
    out = std::copy(word.begin(), word.end(), out);
    for (const std::string_view field : fields) {
        *out++ = '\t';
        out = std::copy(field.begin(), field.end(), out);
    }
    *out++ = '\n';
    return out;
}

} // namespace detail

// Everything that the verdict's text says, and the text. Spans and views into it live as long as it does.
class Verdict {
public:
    [[nodiscard]] Outcome outcome() const noexcept { return outcome_; }
    [[nodiscard]] bool accepted() const noexcept { return outcome_ == Outcome::accepted; }

    // Where the views are first broken, if they are.
    [[nodiscard]] std::optional<Place> broken() const noexcept {
        return outcome_ == Outcome::broken ? std::optional{place_} : std::nullopt;
    }

    // Why the sheet is refused, if it is; nothing below has content then.
    [[nodiscard]] std::optional<Refusal> refused() const noexcept {
        return outcome_ == Outcome::refused ? std::optional{refusal_} : std::nullopt;
    }

    // By the boxes' order on the sheet, source first.
    [[nodiscard]] std::span<const Arrow> needed() const & noexcept { return needed_.items(); }
    // One for each box, in the boxes' order.
    [[nodiscard]] std::span<const Depth> depths() const & noexcept { return depths_.items(); }
    // How many states some run from the start reaches.
    [[nodiscard]] std::uint32_t reach() const noexcept { return reach_; }

    [[nodiscard]] std::string_view text() const & noexcept {
        return {reinterpret_cast<const char *>(buffer_.data()), length_};
    }

    // A part of a verdict that is gone at the end of the line could be kept by mistake.
    void needed() const && = delete;
    void depths() const && = delete;
    void text() const && = delete;

    friend Verdict judge(std::span<const std::uint8_t> sheet) noexcept;

private:
    explicit Verdict(std::span<const std::uint8_t> sheet) noexcept {
        // An empty span may hold a null pointer.
        static constexpr std::uint8_t nothing = 0;
        const std::uint8_t *const front = sheet.empty() ? &nothing : sheet.data();
        length_ = std::min(zarpalume_verdict(front, sheet.size(), buffer_.data(), buffer_.size()), buffer_.size());
        for (std::string_view rest = text(); !rest.empty();) {
            read(detail::take(rest, '\n'));
        }
    }

    // A line that no verdict has says nothing.
    void read(std::string_view line) noexcept {
        const std::string_view word = detail::take(line, '\t');
        if (word == "views") {
            read_views(line);
        } else if (word == "refused") {
            outcome_ = Outcome::refused;
            refusal_ = {detail::take_number(line), detail::take_number(line)};
        } else if (word == "need") {
            needed_.add({detail::take_number(line), detail::take_number(line)});
        } else if (word == "depth") {
            depths_.add({detail::take_number(line), detail::take_number(line)});
        } else if (word == "reach") {
            reach_ = detail::take_number(line);
        }
    }

    void read_views(std::string_view line) noexcept {
        outcome_ = detail::take(line, '\t') == "accepted" ? Outcome::accepted : Outcome::broken;
        const std::string_view condition = detail::take(line, '\t');
        for (const Condition each : {Condition::output, Condition::respect, Condition::step}) {
            if (condition == word(each)) {
                place_.condition = each;
            }
        }
        place_.box = detail::take_number(line);
        place_.action = detail::take_number(line);
        place_.s = detail::take_number(line);
        place_.t = detail::number(detail::take(line, '\t'));
    }

    // Until a line says otherwise: nothing is ever accepted for want of a line.
    Outcome outcome_ = Outcome::mismatched;
    Place place_{};
    Refusal refusal_{};
    List<Arrow, most_arrows> needed_{};
    List<Depth, most_boxes> depths_{};
    std::uint32_t reach_ = 0;
    std::size_t length_ = 0;
    std::array<std::uint8_t, ZARPALUME_VERDICT_BYTES> buffer_{};
};

// Judges a sheet; never fails. It takes ZARPALUME_STACK_BYTES of stack and the verdict's own size.
[[nodiscard]] inline Verdict judge(std::span<const std::uint8_t> sheet) noexcept {
    return Verdict{sheet};
}

// Vectors, spans, strings and arrays of bytes or characters. A plain array of characters is a text that ends with a zero, as below.
template <typename Bytes>
    requires(!std::is_array_v<Bytes> && detail::is_byte<detail::Element<Bytes>>)
[[nodiscard]] Verdict judge(const Bytes &sheet) noexcept {
    return judge(std::span<const std::uint8_t>{reinterpret_cast<const std::uint8_t *>(std::data(sheet)), std::size(sheet)});
}

[[nodiscard]] inline Verdict judge(std::span<const std::byte> sheet) noexcept {
    return judge<std::span<const std::byte>>(sheet);
}

[[nodiscard]] inline Verdict judge(std::string_view sheet) noexcept {
    return judge<std::string_view>(sheet);
}

[[nodiscard]] inline Verdict judge(std::u8string_view sheet) noexcept {
    return judge<std::u8string_view>(sheet);
}

// What became of an edit: done, or the number of the refusal, which changed nothing.
enum class Edited : std::uint32_t {
    done = 0,
    unknown_id = 8,
    wrong_length = 10,
    broken_rules = 12,
    id_taken = 14,
    no_room = 15,
    nothing_to_undo = 16,
    history_full = 17,
    nothing_to_change = 18,
};

// In words, for people.
constexpr std::string_view words(Edited edited) noexcept {
    switch (edited) {
    case Edited::done:
        return "done";
    case Edited::unknown_id:
        return "no box has this id";
    case Edited::wrong_length:
        return "the list or the history has the wrong length";
    case Edited::broken_rules:
        return "the list or the history breaks the rules";
    case Edited::id_taken:
        return "the id is taken, or deleted in the history";
    case Edited::no_room:
        return "there are as many boxes as fit";
    case Edited::nothing_to_undo:
        return "there is nothing to undo";
    case Edited::history_full:
        return "the history is full";
    case Edited::nothing_to_change:
        return "the arrow stands already, or is absent already, or leads from a box to itself";
    }
    return {};
}

// A drawing while it is edited: boxes by their ids, the arrows between them, and a history of the edits.
// Only edits change it, so no refusal is ever wrong_length or broken_rules. A copy is a drawing of its own.
class Drawing {
public:
    // The box goes last. An id that was deleted is taken as long as the history has its deletion.
    [[nodiscard]] Edited add(std::uint32_t id) noexcept { return edit(zarpalume_add, id); }
    // The box goes with all its arrows.
    [[nodiscard]] Edited remove(std::uint32_t id) noexcept { return edit(zarpalume_delete, id); }
    [[nodiscard]] Edited draw(std::uint32_t source, std::uint32_t target) noexcept { return edit(zarpalume_draw, source, target); }
    [[nodiscard]] Edited erase(std::uint32_t source, std::uint32_t target) noexcept { return edit(zarpalume_erase, source, target); }
    // Boxes, their order, ids and arrows are again what they were before the last edit, which leaves the history.
    [[nodiscard]] Edited undo() noexcept { return edit(zarpalume_undo); }
    // Keeps boxes and arrows. It can be refused for wrong_length and broken_rules only, so never.
    void drop_history() noexcept { static_cast<void>(edit(zarpalume_drop)); }

    // How many edits can be undone; with most_edits of them every new one is refused.
    std::size_t edits() const noexcept { return count_; }

    // The boxes' ids, in box order.
    List<std::uint32_t, most_boxes> boxes() const noexcept {
        List<std::uint32_t, most_boxes> ids;
        for (const zarpalume_box &box : boxes_) {
            if (box.live != 0) {
                ids.add(box.id);
            }
        }
        return ids;
    }

    // By box order, source first.
    List<Arrow, most_arrows> arrows() const noexcept {
        return arrows_where([](const Arrow &) { return true; });
    }

    // The arrows that start or end at this box.
    List<Arrow, most_arrows> arrows_touching(std::uint32_t id) const noexcept {
        return arrows_where([id](const Arrow &arrow) { return arrow.source == id || arrow.target == id; });
    }

    // Writes a sheet's `box` lines through an output iterator, which is given back; label(id) is the box's label.
    // A label or an id that no sheet has is written as it is, and refused when the sheet is judged.
    template <std::output_iterator<char> Out, typename Label>
        requires std::is_invocable_r_v<std::string_view, Label &, std::uint32_t>
    Out write_boxes(Out out, Label &&label) const {
        for (const std::uint32_t id : boxes()) {
            out = detail::put_line(out, "box", {detail::Digits{id}.text(), label(id)});
        }
        return out;
    }

    // The same for its `flow` lines.
    template <std::output_iterator<char> Out>
    Out write_arrows(Out out) const {
        for (const auto &[source, target] : arrows()) {
            out = detail::put_line(out, "flow", {detail::Digits{source}.text(), detail::Digits{target}.text()});
        }
        return out;
    }

private:
    template <typename Call, typename... Ids>
    Edited edit(Call call, Ids... ids) noexcept {
        return Edited{call(boxes_.data(), boxes_.size(), history_.data(), history_.size(), &count_, ids...)};
    }

    template <typename Test>
    List<Arrow, most_arrows> arrows_where(Test wanted) const noexcept {
        List<Arrow, most_arrows> found;
        for (const zarpalume_box &source : boxes_) {
            for (std::size_t position = 0; position < most_boxes; position++) {
                const Arrow arrow{source.id, boxes_[position].id};
                if ((source.arrows >> position & 1) != 0 && wanted(arrow)) {
                    found.add(arrow);
                }
            }
        }
        return found;
    }

    std::array<zarpalume_box, ZARPALUME_BOXES> boxes_{};
    std::array<std::uint32_t, ZARPALUME_EDIT_WORDS> history_{};
    std::uint32_t count_ = 0;
};

static_assert(sizeof(std::array<zarpalume_edit, ZARPALUME_EDITS>) == sizeof(std::array<std::uint32_t, ZARPALUME_EDIT_WORDS>));

} // namespace zarpalume

#endif

#endif
