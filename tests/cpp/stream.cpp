// Holds the C call and the C++ header to the second program's answers, in as many threads at once as the third word says.
#include "requests.hpp"
#include "threads.hpp"

#include <zarpalume.hpp>

#include <algorithm>
#include <memory>
#include <string>

zarpalume::Verdict judged_elsewhere(std::string_view sheet) noexcept;

namespace {

constexpr std::uint8_t painted = 0xA5;
constexpr std::size_t guard = 61;

std::string line(std::initializer_list<std::string_view> fields) {
    std::string result;
    for (const std::string_view field : fields) {
        result.append(result.empty() ? "" : "\t").append(field);
    }
    return result + "\n";
}

// The text again, from what was read out of it.
std::string rebuilt(const zarpalume::Verdict &verdict) {
    using std::to_string;
    if (const auto refusal = verdict.refused()) {
        return line({"refused", to_string(refusal->number), to_string(refusal->line)});
    }
    std::string result;
    if (const auto place = verdict.broken()) {
        result = line({"views", "broken", word(place->condition), to_string(place->box), to_string(place->action),
                       to_string(place->s), place->t ? to_string(*place->t) : "-"});
    } else if (verdict.accepted()) {
        result = line({"views", "accepted"});
    }
    for (const auto &[source, target] : verdict.needed()) {
        result += line({"need", to_string(source), to_string(target)});
    }
    for (const auto &[box, depth] : verdict.depths()) {
        result += line({"depth", to_string(box), to_string(depth)});
    }
    return result + line({"reach", to_string(verdict.reach())});
}

// At odd places, with the sheet up to the very end of its allocation and guard bytes on both sides of the verdict.
bool called(const Request &request) {
    const std::size_t sheet_length = request.sheet.size();
    const auto sheet = std::make_unique<std::uint8_t[]>(sheet_length + 1);
    std::copy(request.sheet.begin(), request.sheet.end(), sheet.get() + 1);
    Bytes expected(guard, painted);
    expected.insert(expected.end(), request.buffer.begin(), request.buffer.end());
    expected.insert(expected.end(), guard, painted);
    Bytes buffer(expected.size(), painted);
    const std::size_t length = zarpalume_verdict(sheet.get() + 1, sheet_length, buffer.data() + guard, request.buffer.size());
    return length == request.length && buffer == expected;
}

// Whatever a program has its bytes in.
bool judged_as_any_kind(std::string_view sheet, std::string_view expected) {
    std::vector<char> vector{sheet.begin(), sheet.end()};
    const std::span<char> span{vector};
    const std::u8string text{sheet.begin(), sheet.end()};
    const std::string string{sheet};
    const auto is_right = [&](const zarpalume::Verdict &verdict) { return verdict.text() == expected; };
    return is_right(zarpalume::judge(vector)) && is_right(zarpalume::judge(span)) && is_right(zarpalume::judge(std::span<const char>{span})) &&
           is_right(zarpalume::judge(text)) && is_right(zarpalume::judge(std::u8string_view{text})) && is_right(zarpalume::judge(string)) &&
           is_right(zarpalume::judge(std::move(vector)));
}

bool wrapped(const Request &request) {
    const std::string_view expected{reinterpret_cast<const char *>(request.buffer.data()), request.length};
    const std::string_view sheet{reinterpret_cast<const char *>(request.sheet.data()), request.sheet.size()};
    const auto verdict = zarpalume::judge(request.sheet);
    const auto elsewhere = judged_elsewhere(sheet);
    const auto bytes = zarpalume::judge(std::as_bytes(std::span{request.sheet}));
    return verdict.text() == expected && rebuilt(verdict) == expected && elsewhere.text() == expected && bytes.text() == expected &&
           judged_as_any_kind(sheet, expected);
}

bool right(const Request &request) {
    return called(request) && (request.buffer.size() != ZARPALUME_VERDICT_BYTES || wrapped(request));
}

} // namespace

int main(int count, char **words) {
    if (count != 4) {
        return 2;
    }
    const std::size_t threads = std::strtoul(words[3], nullptr, 10);
    const std::vector<Request> requests = read_requests(words[1], words[2]);
    const std::size_t wrong = wrong_in_threads(requests, threads, right);
    std::printf("stream: %zu requests, each in %zu threads, %zu answered wrongly\n", requests.size(), threads, wrong);
    return threads > 0 && wrong == 0 ? 0 : 1;
}
