// Numbers and bytes of a stream, and requests with their answers, as tests/README.md lays them out.
#pragma once

#include <cstddef>
#include <cstdint>
#include <cstdio>
#include <cstdlib>
#include <fstream>
#include <type_traits>
#include <vector>

using Bytes = std::vector<std::uint8_t>;

class Stream {
public:
    explicit Stream(std::istream &source) : source_{source} {}

    bool ended() { return source_.peek() == std::istream::traits_type::eof(); }

    Bytes bytes(std::size_t count) {
        Bytes result(count);
        if (!source_.read(reinterpret_cast<char *>(result.data()), static_cast<std::streamsize>(count))) {
            std::fputs("a stream is missing or cut short\n", stderr);
            std::exit(2);
        }
        return result;
    }

    std::size_t number(std::size_t count) {
        std::size_t value = 0;
        std::size_t shift = 0;
        for (const std::uint8_t byte : bytes(count)) {
            value |= std::size_t{byte} << shift;
            shift += 8;
        }
        return value;
    }

private:
    std::istream &source_;
};

// Everything in two files, each request with its answer taken from them by the function.
template <typename Take>
auto read_pairs(const char *requests_name, const char *answers_name, Take take) {
    std::ifstream requests_file{requests_name, std::ios::binary};
    std::ifstream answers_file{answers_name, std::ios::binary};
    Stream requests{requests_file};
    Stream answers{answers_file};
    std::vector<std::invoke_result_t<Take, Stream &, Stream &>> result;
    while (!requests.ended()) {
        result.push_back(take(requests, answers));
    }
    if (result.empty() || !answers.ended()) {
        std::fputs("requests and answers do not belong together\n", stderr);
        std::exit(2);
    }
    return result;
}
