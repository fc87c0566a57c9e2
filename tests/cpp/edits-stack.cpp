// Every edit on a stack of the promised size, painted before to see how much of it was taken; and null pointers.
#include "edits.hpp"
#include "stack.hpp"

#include <array>

namespace {

// The list or the history null, with any length but its own; the other one good.
bool null_is_refused() {
    constexpr std::array<std::size_t, 7> lengths{0, 1, ZARPALUME_BOXES - 1, ZARPALUME_BOXES + 1, ZARPALUME_EDIT_WORDS - 1, ZARPALUME_EDIT_WORDS + 1, SIZE_MAX};
    zarpalume_box boxes[ZARPALUME_BOXES] = {};
    std::uint32_t history[ZARPALUME_EDIT_WORDS] = {};
    std::uint32_t count = 0;
    bool refused = true;
    const auto each_call = [&](zarpalume_box *list, std::size_t list_length, std::uint32_t *past, std::size_t past_length) {
        refused = refused && zarpalume_add(list, list_length, past, past_length, &count, 1) == 10 &&
                  zarpalume_delete(list, list_length, past, past_length, &count, 1) == 10 &&
                  zarpalume_draw(list, list_length, past, past_length, &count, 1, 2) == 10 &&
                  zarpalume_erase(list, list_length, past, past_length, &count, 1, 2) == 10 &&
                  zarpalume_undo(list, list_length, past, past_length, &count) == 10 &&
                  zarpalume_drop(list, list_length, past, past_length, &count) == 10 && count == 0;
    };
    for (const std::size_t length : lengths) {
        each_call(nullptr, length, history, ZARPALUME_EDIT_WORDS);
        each_call(boxes, ZARPALUME_BOXES, nullptr, length);
        each_call(nullptr, length, nullptr, length);
    }
    return refused;
}

} // namespace

int main(int count, char **words) {
    if (count != 3) {
        return 2;
    }
    const std::vector<Asked> all = read_edits(words[1], words[2]);
    // Copied before, since allocating takes stack of its own.
    std::vector<LentDrawing> drawings;
    for (const Asked &asked : all) {
        drawings.push_back(asked.request.drawing);
    }
    const std::size_t taken = stack_taken([&] {
        return std::equal(all.begin(), all.end(), drawings.begin(), [](const Asked &asked, LentDrawing &drawing) { return called(drawing, asked); });
    });
    const bool null_right = null_is_refused();
    std::printf("edits-stack: %zu bytes taken of %d promised; null pointers %s\n", taken, ZARPALUME_STACK_BYTES, null_right ? "refused" : "WRONG");
    return taken > 0 && taken <= ZARPALUME_STACK_BYTES && null_right ? 0 : 1;
}
