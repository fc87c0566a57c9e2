// sheets FOLDER COUNT: writes that many good sheets of about 30 KB, the same in each run; every second one is accepted.
#include <cstddef>
#include <cstdint>
#include <cstdlib>
#include <fstream>
#include <string>
#include <zarpalume.h>

namespace {

constexpr std::size_t states = 64;
constexpr std::size_t actions = 16;
constexpr std::size_t boxes = ZARPALUME_BOXES;

// Numbers that look random (xorshift64*).
class Dice {
public:
    std::size_t below(std::size_t bound) {
        state_ ^= state_ >> 12;
        state_ ^= state_ << 25;
        state_ ^= state_ >> 27;
        return static_cast<std::size_t>((state_ * 0x2545F4914F6CDD1D) >> 33) % bound;
    }

private:
    std::uint64_t state_ = 0x5EED2A9A11CE0011;
};

std::string line(const char *word, std::initializer_list<std::size_t> numbers) {
    std::string result = word;
    for (const std::size_t number : numbers) {
        result += "\t" + std::to_string(number);
    }
    return result + "\n";
}

// With all arrows drawn, views that tell all states apart are accepted; a few arrows and classes break something.
std::string sheet(Dice &dice, bool accepted) {
    std::string text = line("sheet", {states, actions, boxes, dice.below(states)});
    for (std::size_t box = 0; box < boxes; box++) {
        text += "box\t" + std::to_string(box + 10) + "\tBox " + std::to_string(box) + "\n";
    }
    for (std::size_t action = 0; action < actions; action++) {
        text += line("act", {dice.below(boxes) + 10});
    }
    for (std::size_t state = 0; state < states; state++) {
        for (std::size_t action = 0; action < actions; action++) {
            text += line("go", {state, action, dice.below(4) == 0 ? dice.below(states) : state, dice.below(2)});
        }
    }
    for (std::size_t source = 0; source < boxes; source++) {
        for (std::size_t target = 0; target < boxes; target++) {
            if (accepted || dice.below(8) == 0) {
                text += line("flow", {source + 10, target + 10});
            }
        }
    }
    for (std::size_t box = 0; box < boxes; box++) {
        for (std::size_t state = 0; state < states; state++) {
            text += line("view", {box + 10, state, accepted ? state : dice.below(states)});
        }
    }
    return text;
}

} // namespace

int main(int count, char **words) {
    if (count != 3) {
        return 2;
    }
    Dice dice;
    const std::size_t wanted = std::strtoul(words[2], nullptr, 10);
    for (std::size_t k = 0; k < wanted; k++) {
        std::ofstream file{std::string{words[1]} + "/" + std::to_string(k) + ".sheet", std::ios::binary};
        if (!(file << sheet(dice, k % 2 == 0))) {
            return 2;
        }
    }
    return 0;
}
