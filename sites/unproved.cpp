// Stands in for the library and for input.cpp until the library is proved: words and files are looked at,
// and the program ends where it wants a verdict, or what can be read only once.
#include "common/program.hpp"

#include <zarpalume.h>

#include <cstddef>
#include <cstdint>
#include <cstdlib>

namespace {

// So sites/build.sh knows that nothing was found wrong.
constexpr int nothing_wrong = 3;

} // namespace

sites::Reading sites::read_standard_input(std::size_t) {
    std::_Exit(nothing_wrong);
}

sites::Reading sites::read_pipe(const std::string &, std::size_t) {
    std::_Exit(nothing_wrong);
}

std::size_t zarpalume_verdict(const std::uint8_t *, std::size_t, std::uint8_t *, std::size_t) {
    std::_Exit(nothing_wrong);
}
