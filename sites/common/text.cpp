#include "text.hpp"

#include <zarpalume.h>

#include <array>

namespace sites {

namespace {

// Characters of UTF-8 by the bounds of their first byte: how many bytes follow it, and the bounds of the next one.
struct Shape {
    unsigned char first, last;
    std::size_t following;
    unsigned char least, most;
};

// All but the backslash and the controls, those of two bytes among them.
constexpr std::array<Shape, 11> plain_shapes{{
    {0x20, 0x5B, 0, 0, 0},
    {0x5D, 0x7E, 0, 0, 0},
    {0xC2, 0xC2, 1, 0xA0, 0xBF},
    {0xC3, 0xDF, 1, 0x80, 0xBF},
    {0xE0, 0xE0, 2, 0xA0, 0xBF},
    {0xE1, 0xEC, 2, 0x80, 0xBF},
    {0xED, 0xED, 2, 0x80, 0x9F},
    {0xEE, 0xEF, 2, 0x80, 0xBF},
    {0xF0, 0xF0, 3, 0x90, 0xBF},
    {0xF1, 0xF3, 3, 0x80, 0xBF},
    {0xF4, 0xF4, 3, 0x80, 0x8F},
}};

bool fits(const Shape &shape, std::string_view text) {
    const auto byte = [&](std::size_t k) { return static_cast<unsigned char>(text[k]); };
    if (byte(0) < shape.first || byte(0) > shape.last || text.size() <= shape.following) {
        return false;
    }
    for (std::size_t k = 1; k <= shape.following; k++) {
        const bool second = k == 1;
        if (byte(k) < (second ? shape.least : 0x80) || byte(k) > (second ? shape.most : 0xBF)) {
            return false;
        }
    }
    return true;
}

// How many bytes the plain character has with which the text begins; 0 where it begins with none.
std::size_t plain_bytes(std::string_view text) {
    for (const Shape &shape : plain_shapes) {
        if (fits(shape, text)) {
            return shape.following + 1;
        }
    }
    return 0;
}

std::string escape(char each) {
    constexpr std::string_view digits = "0123456789abcdef";
    const auto byte = static_cast<unsigned char>(each);
    switch (each) {
    case '\\':
        return "\\\\";
    case '\t':
        return "\\t";
    case '\n':
        return "\\n";
    default:
        return {'\\', 'x', digits[byte / 16], digits[byte % 16]};
    }
}

} // namespace

std::string escaped(std::string_view text) {
    std::string result;
    while (!text.empty()) {
        const std::size_t plain = plain_bytes(text);
        result += plain > 0 ? std::string{text.substr(0, plain)} : escape(text.front());
        text.remove_prefix(std::max<std::size_t>(plain, 1));
    }
    return result;
}

std::string shown(std::string_view text) {
    constexpr std::size_t most = ZARPALUME_LABEL_BYTES;
    std::string result;
    for (const char each : text.substr(0, most)) {
        // Byte by byte, since a sheet is ASCII: what isn't must be seen.
        result += each == '"' ? "\\\"" : escaped({&each, 1});
    }
    return '"' + result + (text.size() > most ? "..." : "") + '"';
}

} // namespace sites
