// The whole run in three lines, and its status.
#pragma once

#include "finding.hpp"

#include <array>
#include <cstddef>
#include <string>

namespace sites {

class Summary {
public:
    void add(const Finding &finding);

    std::string text() const;
    // The worst that was found.
    int status() const noexcept { return status_; }

private:
    std::size_t count(Outcome outcome) const { return outcomes_[static_cast<std::size_t>(outcome)]; }
    std::size_t count(Stored stored) const { return stored_[static_cast<std::size_t>(stored)]; }

    std::array<std::size_t, outcome_count> outcomes_{};
    std::array<std::size_t, stored_count> stored_{};
    std::size_t arrows_ = 0;
    std::size_t sheets_with_arrows_ = 0;
    int status_ = 0;
};

} // namespace sites
