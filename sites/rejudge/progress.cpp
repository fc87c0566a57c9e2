#include "progress.hpp"

#include <cstdio>
#include <string>
#include <unistd.h>

namespace sites {

namespace {

constexpr std::size_t width = 30;
constexpr std::chrono::milliseconds pause{100};

} // namespace

Progress::Progress(std::size_t total)
    : terminal_{::isatty(STDERR_FILENO) == 1}, table_on_terminal_{::isatty(STDOUT_FILENO) == 1}, total_{total} {}

void Progress::show(std::size_t done) {
    const auto now = Clock::now();
    if (!terminal_ || done == 0 || (!made_way_ && now - last_ < pause)) {
        return;
    }
    last_ = now;
    shown_ = true;
    made_way_ = false;
    const double rate = static_cast<double>(done) / std::chrono::duration<double>(now - start_).count();
    const std::size_t full = done * width / total_;
    const std::string bar = std::string(full, '#') + std::string(width - full, '.');
    std::fprintf(stderr, "\r\033[K[%s] %zu of %zu, %.0f a second, %.0f s left", bar.c_str(), done, total_, rate,
                 static_cast<double>(total_ - done) / rate);
}

void Progress::make_way() {
    if (shown_ && table_on_terminal_) {
        erase();
        made_way_ = true;
    }
}

void Progress::erase() {
    if (shown_) {
        std::fputs("\r\033[K", stderr);
        shown_ = false;
    }
}

} // namespace sites
