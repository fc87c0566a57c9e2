// The reader of drawings: its paths against a search of another kind, and any bytes at all, which it must survive.
#include "../../sites/common/drawing.hpp"

#include <array>
#include <cstdio>
#include <random>
#include <string>

namespace {

constexpr std::size_t boxes = 7;
using Arrows = std::array<std::array<bool, boxes>, boxes>;

int wrong = 0;

void check(bool right, const std::string &what) {
    if (!right) {
        std::printf("drawing: wrong: %s\n", what.c_str());
        wrong++;
    }
}

std::uint32_t id(std::size_t position) {
    return static_cast<std::uint32_t>(65535 - 3 * position);
}

std::string text(const Arrows &arrows) {
    std::string result = "sheet\t1\t2\t7\t0\n";
    for (std::size_t box = 0; box < boxes; box++) {
        result += "box\t" + std::to_string(id(box)) + "\tb " + std::to_string(box) + "\n";
    }
    result += "act\t65529\nact\t65535\ngo\t0\t0\t0\t0\ngo\t0\t1\t0\t0\n";
    for (std::size_t from = 0; from < boxes; from++) {
        for (std::size_t to = 0; to < boxes; to++) {
            // Both directions at once, where the word allows it.
            const bool both = arrows[from][to] && arrows[to][from] && from != to;
            if (arrows[from][to] && (!both || from < to)) {
                result += (both ? "both\t" : "flow\t") + std::to_string(id(from)) + "\t" + std::to_string(id(to)) + "\n";
            }
        }
    }
    return result + "view\t65535\t0\t0\nflow\t65535\t65532\n";
}

// Steps from box to box until nothing new is met.
bool reaches(const Arrows &arrows, std::size_t from, std::size_t to) {
    std::array<bool, boxes> met = arrows[from];
    for (std::size_t round = 0; round < boxes; round++) {
        for (std::size_t inner = 0; inner < boxes; inner++) {
            for (std::size_t next = 0; met[inner] && next < boxes; next++) {
                met[next] = met[next] || arrows[inner][next];
            }
        }
    }
    return met[to];
}

void random_drawings(std::mt19937 &dice) {
    for (unsigned k = 0; k < 2000; k++) {
        Arrows arrows{};
        for (auto &each : arrows) {
            for (bool &arrow : each) {
                arrow = dice() % (3 + k % 9) == 0;
            }
        }
        const std::string sheet = text(arrows);
        const sites::Drawing drawing{sheet};
        check(drawing.boxes().size() == boxes && drawing.boxes()[6].id == 65517 && drawing.boxes()[6].label == "b 6", "boxes");
        check(drawing.owners() == std::vector<std::uint32_t>{65529, 65535}, "owners");
        for (std::size_t from = 0; from < boxes; from++) {
            for (std::size_t to = 0; to < boxes; to++) {
                const auto expected = arrows[from][to]            ? sites::Drawn::arrow
                                      : reaches(arrows, from, to) ? sites::Drawn::path
                                                                  : sites::Drawn::nothing;
                check(drawing.drawn({id(from), id(to)}) == expected, "from " + std::to_string(from) + " to " + std::to_string(to) + " in\n" + sheet);
            }
        }
    }
}

void any_bytes(std::mt19937 &dice) {
    constexpr std::array<std::string_view, 12> parts{"box", "act", "flow", "both", "view", "\t", "\n", "7", "65535", "99999999999", "-", "\xff"};
    for (unsigned k = 0; k < 20000; k++) {
        std::string sheet;
        for (auto length = dice() % 60; length > 0; length--) {
            sheet += dice() % 8 == 0 ? std::string(1, static_cast<char>(dice())) : std::string{parts[dice() % parts.size()]};
        }
        const sites::Drawing drawing{sheet};
        drawing.drawn({7, 65535});
        check(drawing.boxes().size() <= zarpalume::most_boxes, "more boxes than a sheet has");
    }
    std::string crowded;
    for (unsigned k = 0; k < 100; k++) {
        crowded += "box\t" + std::to_string(k) + "\tb\nflow\t" + std::to_string(k) + "\t0\n";
    }
    check(sites::Drawing{crowded}.boxes().size() == zarpalume::most_boxes, "boxes beyond the last");
}

} // namespace

int main() {
    std::mt19937 dice{11};
    random_drawings(dice);
    any_bytes(dice);
    std::printf("drawing: %d wrong\n", wrong);
    return wrong == 0 ? 0 : 1;
}
