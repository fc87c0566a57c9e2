// Edits as tests/README.md lays them out, asked of the six C calls; what is lent stands between guards.
#pragma once

#include "layout.hpp"

#include <zarpalume.h>

#include <algorithm>
#include <utility>

using Words = std::vector<std::uint32_t>;

struct Step {
    std::uint8_t kind;
    std::uint32_t first;
    std::uint32_t second;
};

// Words that are lent, with guards on both sides.
class Lent {
public:
    explicit Lent(const Words &words) : words_(words.size() + 2 * guard, painted) { std::copy(words.begin(), words.end(), data()); }

    std::uint32_t *data() { return words_.data() + guard; }
    const std::uint32_t *data() const { return words_.data() + guard; }
    std::size_t size() const { return words_.size() - 2 * guard; }

    // A place beyond what is lent is left alone.
    void write(std::size_t place, std::uint32_t number) {
        if (place < size()) {
            data()[place] = number;
        }
    }

    bool is_guarded() const {
        const auto is_painted = [](std::uint32_t word) { return word == painted; };
        return std::all_of(words_.begin(), words_.begin() + guard, is_painted) && std::all_of(words_.end() - guard, words_.end(), is_painted);
    }

private:
    static constexpr std::uint32_t painted = 0xA5A5A5A5;
    // Odd, so that nothing is aligned better than a word has to be.
    static constexpr std::ptrdiff_t guard = 13;
    Words words_;
};

constexpr std::size_t box_words = sizeof(zarpalume_box) / sizeof(std::uint32_t);

struct LentDrawing {
    Lent boxes;
    Lent history;
    Lent count;

    // The refusal's number, or 0; the kinds from 7 on are written by the host.
    std::uint32_t take(const Step &step) {
        switch (step.kind) {
        case 1:
            return call(zarpalume_add, step.first);
        case 2:
            return call(zarpalume_delete, step.first);
        case 3:
            return call(zarpalume_draw, step.first, step.second);
        case 4:
            return call(zarpalume_erase, step.first, step.second);
        case 5:
            return call(zarpalume_undo);
        case 6:
            return call(zarpalume_drop);
        case 7:
            boxes.write(step.first, step.second);
            return 0;
        case 8:
            history.write(step.first, step.second);
            return 0;
        default:
            count.write(0, step.second);
            return 0;
        }
    }

private:
    template <typename Call, typename... Ids>
    std::uint32_t call(Call edit, Ids... ids) {
        auto *const records = reinterpret_cast<zarpalume_box *>(boxes.data());
        const std::uint32_t number = edit(records, boxes.size() / box_words, history.data(), history.size(), count.data(), ids...);
        if (!boxes.is_guarded() || !history.is_guarded() || !count.is_guarded()) {
            std::fputs("a call wrote beside what it was lent\n", stderr);
            std::exit(3);
        }
        return number;
    }
};

struct EditRequest {
    LentDrawing drawing;
    std::vector<Step> steps;
};

inline Words take_words(Stream &stream, std::size_t count) {
    const Bytes bytes = stream.bytes(4 * count);
    Words words(count);
    for (std::size_t i = 0; i < bytes.size(); i++) {
        words[i / 4] |= std::uint32_t{bytes[i]} << i % 4 * 8;
    }
    return words;
}

inline EditRequest take_edits(Stream &requests) {
    if (requests.number(1) != 'E') {
        std::fputs("a request for another call\n", stderr);
        std::exit(2);
    }
    Lent boxes{take_words(requests, box_words * requests.number(4))};
    Lent history{take_words(requests, requests.number(4))};
    EditRequest request{{std::move(boxes), std::move(history), Lent{take_words(requests, 1)}}, {}};
    request.steps.resize(requests.number(4));
    for (Step &step : request.steps) {
        step.kind = static_cast<std::uint8_t>(requests.number(1));
        const Words numbers = take_words(requests, 2);
        step.first = numbers[0];
        step.second = numbers[1];
    }
    return request;
}

inline void put_word(Bytes &answer, std::size_t word) {
    for (int shift = 0; shift < 32; shift += 8) {
        answer.push_back(static_cast<std::uint8_t>(word >> shift & 255));
    }
}

inline void put_words(Bytes &answer, const Lent &words) {
    std::for_each(words.data(), words.data() + words.size(), [&](std::uint32_t word) { put_word(answer, word); });
}

// The step's number, and the drawing after it.
inline void put_step(Bytes &answer, std::uint32_t number, const LentDrawing &drawing) {
    put_word(answer, number);
    put_word(answer, drawing.boxes.size() / box_words);
    put_words(answer, drawing.boxes);
    put_word(answer, drawing.history.size());
    put_words(answer, drawing.history);
    put_words(answer, drawing.count);
}

// What the second program says after a step.
struct Said {
    std::uint32_t number;
    Words boxes;
    Words history;
    std::uint32_t count;
};

struct Asked {
    EditRequest request;
    std::vector<Said> answers;
};

inline std::vector<Asked> read_edits(const char *requests_name, const char *answers_name) {
    return read_pairs(requests_name, answers_name, [](Stream &requests, Stream &answers) {
        Asked asked{take_edits(requests), {}};
        for (std::size_t k = 0; k < asked.request.steps.size(); k++) {
            Said said{};
            said.number = take_words(answers, 1)[0];
            said.boxes = take_words(answers, box_words * answers.number(4));
            said.history = take_words(answers, answers.number(4));
            said.count = take_words(answers, 1)[0];
            asked.answers.push_back(std::move(said));
        }
        return asked;
    });
}

inline bool equal(const Lent &lent, const Words &words) {
    return std::equal(lent.data(), lent.data() + lent.size(), words.begin(), words.end());
}

// Each step on what is lent.
inline bool called(LentDrawing &drawing, const Asked &asked) {
    for (std::size_t k = 0; k < asked.answers.size(); k++) {
        const Said &said = asked.answers[k];
        if (drawing.take(asked.request.steps[k]) != said.number || !equal(drawing.boxes, said.boxes) || !equal(drawing.history, said.history) ||
            drawing.count.data()[0] != said.count) {
            return false;
        }
    }
    return true;
}
