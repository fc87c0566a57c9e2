// What is escaped: characters of Unicode, and random bytes against a decoder of another kind.
#include "../../sites/common/text.hpp"

#include <cstdint>
#include <cstdio>
#include <random>
#include <string>

namespace {

int wrong = 0;

void check(const std::string &text, const std::string &expected) {
    // The first is enough to look at.
    if (sites::escaped(text) != expected && wrong++ == 0) {
        std::printf("text: wrong: what should be %s\n", expected.c_str());
    }
}

std::string utf8(std::uint32_t character) {
    const auto byte = [](std::uint32_t bits) { return static_cast<char>(bits); };
    const auto next = [&](unsigned shift) { return byte(0x80 | ((character >> shift) & 0x3F)); };
    if (character < 0x80) {
        return {byte(character)};
    }
    if (character < 0x800) {
        return {byte(0xC0 | (character >> 6)), next(0)};
    }
    if (character < 0x10000) {
        return {byte(0xE0 | (character >> 12)), next(6), next(0)};
    }
    return {byte(0xF0 | (character >> 18)), next(12), next(6), next(0)};
}

bool is_plain(std::uint32_t character) {
    const bool control = character < 0x20 || (character >= 0x7F && character < 0xA0);
    const bool surrogate = character >= 0xD800 && character < 0xE000;
    return !control && !surrogate && character < 0x110000 && character != '\\';
}

std::string each_byte_escaped(const std::string &text) {
    std::string result;
    for (const char each : text) {
        char room[5] = {};
        std::snprintf(room, sizeof room, "\\x%02x", static_cast<unsigned>(static_cast<unsigned char>(each)));
        const std::string shown = room;
        result += each == '\t' ? "\\t" : each == '\n' ? "\\n" : each == '\\' ? "\\\\" : shown;
    }
    return result;
}

// All of one and two bytes, and of the others every 61st; beyond the last there are some that four bytes would have room for.
void characters() {
    for (std::uint32_t character = 0; character < 0x200000; character += character < 0x1000 ? 1 : 61) {
        const std::string text = utf8(character);
        check("a" + text + "b", "a" + (is_plain(character) ? text : each_byte_escaped(text)) + "b");
    }
}

// The character whose shortest form stands at the text's start, by trying all lengths; nothing where there is none.
std::string character_at_start(const std::string &text) {
    for (std::size_t length = 1; length <= 4 && length <= text.size(); length++) {
        std::uint32_t character = static_cast<unsigned char>(text[0]) & (length == 1 ? 0x7FU : 0x7FU >> length);
        for (std::size_t k = 1; k < length; k++) {
            character = character << 6 | (static_cast<unsigned char>(text[k]) & 0x3F);
        }
        if (is_plain(character) && utf8(character) == text.substr(0, length)) {
            return text.substr(0, length);
        }
    }
    return {};
}

void random_bytes(std::mt19937 &dice) {
    for (unsigned k = 0; k < 50000; k++) {
        std::string text;
        for (auto length = dice() % 12; length > 0; length--) {
            // Mostly bytes that are part of something longer.
            text += static_cast<char>(dice() % 4 == 0 ? dice() : dice() % 2 == 0 ? 0x80 | dice() % 64 : 0xC0 | dice() % 64);
        }
        std::string expected;
        for (std::string rest = text; !rest.empty();) {
            const std::string character = character_at_start(rest);
            expected += character.empty() ? each_byte_escaped(rest.substr(0, 1)) : character;
            rest.erase(0, std::max<std::size_t>(character.size(), 1));
        }
        check(text, expected);
    }
}

} // namespace

int main() {
    std::mt19937 dice{12};
    characters();
    random_bytes(dice);
    std::printf("text: %d wrong\n", wrong);
    return wrong == 0 ? 0 : 1;
}
