// Answers the requests for edits on standard input with the six C calls of the proved library.
#include "edits.hpp"

#include <iostream>

int main() {
    std::ios::sync_with_stdio(false);
    Stream requests{std::cin};
    while (!requests.ended()) {
        auto [drawing, steps] = take_edits(requests);
        Bytes answer;
        for (const Step &step : steps) {
            put_step(answer, drawing.take(step), drawing);
        }
        std::cout.write(reinterpret_cast<const char *>(answer.data()), static_cast<std::streamsize>(answer.size()));
    }
    return std::cout.flush() ? 0 : 2;
}
