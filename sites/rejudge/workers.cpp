#include "workers.hpp"

#include <zarpalume.hpp>

#include <algorithm>
#include <climits>
#include <utility>

namespace sites {

namespace {

// The frames from a thread's start down to the call: a verdict, a second one where it is handed on, and 12 KiB, of which the dynamic linker's lookups take 3.
constexpr std::size_t own_stack = 2 * sizeof(zarpalume::Verdict) + 12 * 1024;

// What the call is promised, what stands above it, and what a thread needs for itself. std::thread can't be told.
std::size_t stack_size() {
    return ZARPALUME_STACK_BYTES + own_stack + static_cast<std::size_t>(PTHREAD_STACK_MIN);
}

} // namespace

Workers::Workers(Turns turns, std::size_t threads, std::function<void(std::size_t)> work)
    : turns_{std::move(turns)}, work_{std::move(work)}, finished_(turns_.size(), false) {
    start_threads(std::min(threads, turns_.size()));
    // Where no thread is to be had the work is done here, on a stack that is larger.
    if (threads_.empty()) {
        run();
    }
}

Workers::~Workers() {
    next_ = finished_.size();
    for (const pthread_t thread : threads_) {
        pthread_join(thread, nullptr);
    }
}

void Workers::start_threads(std::size_t count) {
    pthread_attr_t attributes;
    if (pthread_attr_init(&attributes) != 0) {
        return;
    }
    // There has to be room for a thread before it runs.
    threads_.reserve(count);
    const bool sized = pthread_attr_setstacksize(&attributes, stack_size()) == 0;
    for (std::size_t each = 0; sized && each < count; each++) {
        pthread_t thread;
        if (pthread_create(&thread, &attributes, start, this) == 0) {
            threads_.push_back(thread);
        }
    }
    pthread_attr_destroy(&attributes);
}

bool Workers::wait(std::size_t piece, std::chrono::milliseconds moment) {
    std::unique_lock lock{mutex_};
    changed_.wait_for(lock, moment, [&] { return finished_[piece] || problem_; });
    if (!finished_[piece] && problem_) {
        std::rethrow_exception(problem_);
    }
    return finished_[piece];
}

std::size_t Workers::done() {
    const std::lock_guard lock{mutex_};
    return done_;
}

void Workers::run() {
    try {
        for (std::size_t piece = next_++; piece < finished_.size(); piece = next_++) {
            do_piece(piece);
        }
    } catch (...) {
        stop(std::current_exception());
    }
}

void Workers::do_piece(std::size_t piece) {
    std::unique_lock lock{mutex_};
    // Pieces are begun in their order, so the one before is begun already.
    changed_.wait(lock, [&] { return !turns_[piece] || finished_[*turns_[piece]] || problem_; });
    lock.unlock();
    work_(piece);
    lock.lock();
    finished_[piece] = true;
    done_++;
    changed_.notify_all();
}

void Workers::stop(std::exception_ptr problem) {
    const std::lock_guard lock{mutex_};
    problem_ = std::move(problem);
    next_ = finished_.size();
    changed_.notify_all();
}

void *Workers::start(void *workers) {
    static_cast<Workers *>(workers)->run();
    return nullptr;
}

} // namespace sites
