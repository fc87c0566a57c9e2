// Stands in for a library of another version, which gives no verdict.
#include <zarpalume.h>

#include <cstddef>
#include <cstdint>

std::size_t zarpalume_verdict(const std::uint8_t *, std::size_t, std::uint8_t *, std::size_t) {
    return 0;
}
