// How much stack calls take, measured on one of the promised size that was painted before.
#pragma once

#include <zarpalume.h>

#include <algorithm>
#include <climits>
#include <cstddef>
#include <cstdint>
#include <pthread.h>
#include <sys/mman.h>
#include <unistd.h>

template <typename Calls>
struct OnStack {
    Calls calls;
    const std::uint8_t *caller = nullptr;
    bool right = false;

    static void *run(void *handed) {
        OnStack &work = *static_cast<OnStack *>(handed);
        // The frame's address is above all that a call from here takes.
        work.caller = static_cast<const std::uint8_t *>(__builtin_frame_address(0));
        work.right = work.calls();
        return nullptr;
    }
};

// The stack that the calls took, or 0 where they say that something is wrong. A page that nobody may touch stands below it.
template <typename Calls>
std::size_t stack_taken(Calls calls) {
    constexpr std::uint8_t painted = 0xA5;
    const auto page = static_cast<std::size_t>(sysconf(_SC_PAGESIZE));
    // What a thread needs for itself comes on top of what the call is promised.
    const std::size_t wanted = ZARPALUME_STACK_BYTES + static_cast<std::size_t>(PTHREAD_STACK_MIN);
    const std::size_t size = (wanted + page - 1) / page * page;
    void *const mapped = mmap(nullptr, page + size, PROT_READ | PROT_WRITE, MAP_PRIVATE | MAP_ANONYMOUS, -1, 0);
    if (mapped == MAP_FAILED || mprotect(mapped, page, PROT_NONE) != 0) {
        return 0;
    }
    std::uint8_t *const stack = static_cast<std::uint8_t *>(mapped) + page;
    std::fill_n(stack, size, painted);
    OnStack<Calls> work{calls};
    pthread_attr_t attributes;
    pthread_t thread;
    if (pthread_attr_init(&attributes) != 0 || pthread_attr_setstack(&attributes, stack, size) != 0 ||
        pthread_create(&thread, &attributes, OnStack<Calls>::run, &work) != 0 || pthread_join(thread, nullptr) != 0 || !work.right) {
        return 0;
    }
    const std::uint8_t *const lowest = std::find_if(stack, stack + size, [](std::uint8_t byte) { return byte != painted; });
    return static_cast<std::size_t>(work.caller - lowest);
}
