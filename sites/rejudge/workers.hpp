// Work in several threads, waited for piece by piece in its order.
#pragma once

#include "turns.hpp"

#include <atomic>
#include <chrono>
#include <condition_variable>
#include <cstddef>
#include <exception>
#include <functional>
#include <mutex>
#include <pthread.h>
#include <vector>

namespace sites {

class Workers {
public:
    // Starts the work on as many pieces as there are turns, each after the one that has to be done before it.
    Workers(Turns turns, std::size_t threads, std::function<void(std::size_t)> work);
    // Waits for the pieces that are begun; no others are begun then.
    ~Workers();
    Workers(const Workers &) = delete;
    Workers &operator=(const Workers &) = delete;

    // Waits for a piece, but no longer than this; says whether it is done. What stopped the work is thrown on.
    bool wait(std::size_t piece, std::chrono::milliseconds moment);
    // How many pieces are done.
    std::size_t done();

private:
    void start_threads(std::size_t count);
    void run();
    void do_piece(std::size_t piece);
    void stop(std::exception_ptr problem);
    static void *start(void *workers);

    Turns turns_;
    std::function<void(std::size_t)> work_;
    std::atomic<std::size_t> next_ = 0;
    std::mutex mutex_;
    std::condition_variable changed_;
    std::vector<bool> finished_;
    std::size_t done_ = 0;
    std::exception_ptr problem_;
    std::vector<pthread_t> threads_;
};

} // namespace sites
