// Every request on a stack of the promised size, painted before to see how much of it was taken; and null pointers.
#include "requests.hpp"
#include "stack.hpp"

#include <zarpalume.hpp>

namespace {

bool all_right(const std::vector<Request> &requests, Bytes &verdict) {
    return std::all_of(requests.begin(), requests.end(), [&](const Request &request) {
        const std::size_t length = zarpalume_verdict(request.sheet.data(), request.sheet.size(), verdict.data(), verdict.size());
        return request.buffer.size() != verdict.size() || (length == request.length && request.buffer == verdict);
    });
}

bool null_is_empty() {
    constexpr std::string_view refusal = "refused\t1\t0\n";
    Bytes verdict(ZARPALUME_VERDICT_BYTES, 0xA5);
    Bytes expected(ZARPALUME_VERDICT_BYTES, 0);
    std::copy(refusal.begin(), refusal.end(), expected.begin());
    bool right = zarpalume_verdict(nullptr, 0, verdict.data(), verdict.size()) == refusal.size() && verdict == expected;
    const std::uint8_t sheet[] = {'\n'};
    for (const std::size_t length : {std::size_t{0}, std::size_t{1}, verdict.size() - 1, verdict.size() + 1, SIZE_MAX}) {
        right = right && zarpalume_verdict(sheet, sizeof sheet, nullptr, length) == 0 && zarpalume_verdict(nullptr, 0, nullptr, length) == 0;
    }
    const auto empty = zarpalume::judge(std::span<const std::uint8_t>{});
    return right && empty.refused() == zarpalume::Refusal{1, 0} && empty.text() == refusal;
}

} // namespace

int main(int count, char **words) {
    if (count < 3) {
        return 2;
    }
    const std::vector<Request> requests = read_requests(words[1], words[2]);
    Bytes verdict(ZARPALUME_VERDICT_BYTES);
    const std::size_t taken = stack_taken([&] { return all_right(requests, verdict); });
    const bool null_right = null_is_empty();
    std::printf("stack: %zu bytes taken of %d promised; null pointers %s\n", taken, ZARPALUME_STACK_BYTES, null_right ? "as promised" : "WRONG");
    return taken > 0 && taken <= ZARPALUME_STACK_BYTES && null_right ? 0 : 1;
}
