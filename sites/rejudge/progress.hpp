// A bar with rate and time left, on standard error where that is a terminal.
#pragma once

#include <chrono>
#include <cstddef>

namespace sites {

class Progress {
public:
    explicit Progress(std::size_t total);
    ~Progress() { erase(); }
    Progress(const Progress &) = delete;
    Progress &operator=(const Progress &) = delete;

    // Draws the bar, if the last one is old or had to go.
    void show(std::size_t done);
    // Takes the bar away for a line of the table, if that goes to a terminal as well.
    void make_way();

private:
    using Clock = std::chrono::steady_clock;

    void erase();

    bool terminal_;
    bool table_on_terminal_;
    bool shown_ = false;
    bool made_way_ = false;
    std::size_t total_;
    Clock::time_point start_ = Clock::now();
    Clock::time_point last_ = start_;
};

} // namespace sites
