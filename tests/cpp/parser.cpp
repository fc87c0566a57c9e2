// The header over calls that write whatever they like: it must read every text and list, in bounds, and allocate nothing.
#include <zarpalume.hpp>

#include <cstdio>
#include <cstdlib>
#include <new>
#include <type_traits>
#include <utility>

void *operator new(std::size_t) {
    std::abort();
}

namespace {

std::array<char, ZARPALUME_VERDICT_BYTES> said{};
std::size_t said_length = 0;
int wrong = 0;

std::uint32_t edit_number = 0;

void check(bool right, const char *what) {
    if (!right) {
        std::printf("parser: wrong: %s\n", what);
        wrong++;
    }
}

zarpalume::Verdict heard(std::string_view text) {
    said.fill(0);
    said_length = text.copy(said.data(), said.size());
    return zarpalume::judge("a sheet");
}

using zarpalume::Arrow, zarpalume::Condition, zarpalume::Depth, zarpalume::Edited, zarpalume::Outcome, zarpalume::Place, zarpalume::Refusal, zarpalume::Verdict;

template <typename Type>
concept gives_parts = requires(Type &&verdict) { std::forward<Type>(verdict).text(); };

static_assert(std::is_trivially_copyable_v<Verdict>);
static_assert(gives_parts<const Verdict &> && !gives_parts<Verdict>, "no part of a verdict that is about to go");
static_assert(noexcept(zarpalume::judge(std::span<const std::uint8_t>{})) && noexcept(zarpalume::judge(std::span<const std::byte>{})) &&
              noexcept(zarpalume::judge(std::string_view{})));

template <typename Type>
constexpr bool quiet = noexcept(std::declval<Type>().outcome()) && noexcept(std::declval<Type>().accepted()) &&
                       noexcept(std::declval<Type>().broken()) && noexcept(std::declval<Type>().refused()) &&
                       noexcept(std::declval<Type>().needed()) && noexcept(std::declval<Type>().depths()) &&
                       noexcept(std::declval<Type>().reach()) && noexcept(std::declval<Type>().text());
static_assert(quiet<const Verdict &>);

using zarpalume::Drawing;
static_assert(std::is_trivially_copyable_v<Drawing> && std::is_nothrow_default_constructible_v<Drawing>);
static_assert(noexcept(std::declval<Drawing>().add(0)) && noexcept(std::declval<Drawing>().remove(0)) && noexcept(std::declval<Drawing>().draw(0, 0)) &&
              noexcept(std::declval<Drawing>().erase(0, 0)) && noexcept(std::declval<Drawing>().undo()) &&
              noexcept(std::declval<Drawing>().drop_history()) && noexcept(std::declval<Drawing>().edits()) &&
              noexcept(std::declval<Drawing>().boxes()) && noexcept(std::declval<Drawing>().arrows()) &&
              noexcept(std::declval<Drawing>().arrows_touching(0)));

void good_texts() {
    const auto accepted = heard("views\taccepted\nneed\t10\t4294967295\ndepth\t10\t7\nreach\t9\n");
    check(accepted.accepted() && accepted.outcome() == Outcome::accepted && !accepted.broken() && !accepted.refused(), "accepted");
    check(accepted.needed().size() == 1 && accepted.needed()[0] == Arrow{10, 4294967295}, "needed");
    check(accepted.depths().size() == 1 && accepted.depths()[0] == Depth{10, 7} && accepted.reach() == 9, "depth and reach");
    check(heard("views\tbroken\toutput\t1\t2\t3\t4\n").broken() == Place{Condition::output, 1, 2, 3, 4}, "output");
    check(heard("views\tbroken\trespect\t1\t2\t3\t-\n").broken() == Place{Condition::respect, 1, 2, 3, {}}, "respect");
    check(heard("views\tbroken\tstep\t1\t2\t3\t4\n").broken() == Place{Condition::step, 1, 2, 3, 4}, "step");
    const auto refused = heard("refused\t8\t34\n");
    check(refused.refused() == Refusal{8, 34} && refused.outcome() == Outcome::refused, "refused");
}

void texts_that_no_verdict_has() {
    check(heard("").outcome() == Outcome::mismatched && !heard("").refused() && !heard("").accepted() && !heard("").broken(), "an empty text is no verdict");
    check(heard("\n\t\n\n").outcome() == Outcome::mismatched, "empty lines");
    check(heard("views").outcome() == Outcome::broken, "a cut line accepts nothing");
    check(heard("views\taccepte\n").outcome() == Outcome::broken, "half a word accepts nothing");
    const auto odd = heard("need\nneed\t5\nneed\t4294967296\t-1\nneed\t1x\t 2\treach\nreach\t07x");
    check(odd.needed().size() == 4 && odd.needed()[1] == Arrow{5, 0} && odd.needed()[2] == Arrow{} && odd.needed()[3] == Arrow{}, "odd numbers");
    check(odd.reach() == 0, "an odd reach");
    std::array<char, 6 * 1000> many{};
    for (std::size_t i = 0; i < many.size(); i++) {
        many[i] = "need\t\n"[i % 6];
    }
    const auto crowded = heard({many.data(), many.size()});
    check(crowded.needed().size() == zarpalume::most_arrows, "more arrows than fit");
    said_length = SIZE_MAX;
    const auto long_text = zarpalume::judge("a sheet");
    check(long_text.text().size() == ZARPALUME_VERDICT_BYTES, "a length beyond the buffer");
}

// Every text of a few marks and words, put together by the digits of a number.
void mixed_texts() {
    constexpr std::array<std::string_view, 8> parts{"\t", "\n", "views", "accepted", "need", "7", "-", "depth\t1"};
    for (unsigned number = 0; number < 8 * 8 * 8 * 8 * 8; number++) {
        said_length = 0;
        for (unsigned rest = number, k = 0; k < 5; k++, rest /= 8) {
            said_length += parts[rest % 8].copy(said.data() + said_length, said.size() - said_length);
        }
        const std::string_view text{said.data(), said_length};
        const auto verdict = zarpalume::judge("a sheet");
        const bool says_so = text.starts_with("views\taccepted") || text.find("\nviews\taccepted") != std::string_view::npos;
        check(verdict.text() == text && (!verdict.accepted() || says_so), "a mixed text");
    }
}

// A list with every bit set: each box live, with an arrow to each box and to itself.
void lists_that_no_edit_gives() {
    Drawing drawing;
    for (edit_number = 0; edit_number < 20; edit_number++) {
        const Edited outcome = drawing.add(7);
        constexpr std::array numbers{0, 8, 10, 12, 14, 15, 16, 17, 18};
        const bool has_a_name = std::find(numbers.begin(), numbers.end(), static_cast<int>(edit_number)) != numbers.end();
        check(outcome == Edited{edit_number} && words(outcome).empty() != has_a_name, "an edit's number");
    }
    check(drawing.edits() == UINT32_MAX && drawing.boxes().size() == zarpalume::most_boxes, "every box");
    check(drawing.arrows().size() == zarpalume::most_arrows, "more arrows than there can be");
    check(drawing.arrows_touching(UINT32_MAX) == drawing.arrows() && drawing.arrows_touching(7).empty(), "arrows that touch a box");
    constexpr std::string_view box_line = "box\t4294967295\tb\n";
    constexpr std::string_view arrow_line = "flow\t4294967295\t4294967295\n";
    std::array<char, zarpalume::most_boxes * box_line.size() + zarpalume::most_arrows * arrow_line.size()> lines{};
    char *const boxes_end = drawing.write_boxes(lines.data(), [](std::uint32_t) { return "b"; });
    check(std::string_view{lines.data(), boxes_end}.ends_with(box_line), "box lines");
    check(drawing.write_arrows(boxes_end) == lines.data() + lines.size() && std::string_view{lines.data(), lines.size()}.ends_with(arrow_line), "flow lines");
}

} // namespace

extern "C" std::size_t zarpalume_verdict(const std::uint8_t *sheet, std::size_t, std::uint8_t *verdict, std::size_t verdict_length) {
    check(sheet != nullptr && verdict_length == said.size(), "what is handed over");
    std::copy(said.begin(), said.end(), verdict);
    return said_length;
}

extern "C" std::uint32_t zarpalume_add(zarpalume_box *boxes, std::size_t boxes_length, std::uint32_t *history, std::size_t history_length, std::uint32_t *count,
                                       std::uint32_t id) {
    check(boxes_length == ZARPALUME_BOXES && history_length == ZARPALUME_EDIT_WORDS && id == 7, "what is lent");
    std::fill_n(boxes, boxes_length, zarpalume_box{UINT32_MAX, UINT32_MAX, UINT32_MAX});
    std::fill_n(history, history_length, UINT32_MAX);
    *count = UINT32_MAX;
    return edit_number;
}

int main() {
    good_texts();
    texts_that_no_verdict_has();
    mixed_texts();
    lists_that_no_edit_gives();
    const auto empty = zarpalume::judge(std::string_view{});
    check(empty.text().size() == said_length, "an empty sheet");
    std::printf("parser: %d wrong\n", wrong);
    return wrong == 0 ? 0 : 1;
}
