// The verdict requests and the second program's answers.
#pragma once

#include "layout.hpp"

#include <utility>

struct Request {
    Bytes sheet;
    std::size_t length;
    Bytes buffer;
};

inline std::vector<Request> read_requests(const char *requests_name, const char *answers_name) {
    return read_pairs(requests_name, answers_name, [](Stream &requests, Stream &answers) {
        requests.bytes(1);
        Bytes sheet = requests.bytes(requests.number(4));
        requests.number(4);
        const std::size_t length = answers.number(8);
        return Request{std::move(sheet), length, answers.bytes(answers.number(4))};
    });
}
