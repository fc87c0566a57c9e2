// The same requests in several threads at once.
#pragma once

#include <atomic>
#include <cstddef>
#include <thread>
#include <vector>

// How many answers are wrong, when each thread asks for all of them.
template <typename Request, typename Test>
std::size_t wrong_in_threads(const std::vector<Request> &requests, std::size_t threads, Test right) {
    std::atomic<std::size_t> wrong = 0;
    std::vector<std::thread> running;
    for (std::size_t k = 0; k < threads; k++) {
        // Each starts elsewhere, so that different requests are answered at the same time.
        running.emplace_back([&, begin = k * requests.size() / threads] {
            for (std::size_t i = 0; i < requests.size(); i++) {
                wrong += !right(requests[(begin + i) % requests.size()]);
            }
        });
    }
    for (std::thread &each : running) {
        each.join();
    }
    return wrong;
}
