// The verdict, for the commands.
#pragma once

#include <zarpalume.hpp>

#include <stdexcept>
#include <string_view>

namespace sites {

// What is no verdict must not look like one.
inline zarpalume::Verdict verdict_on(std::string_view sheet) {
    const zarpalume::Verdict verdict = zarpalume::judge(sheet);
    if (verdict.outcome() == zarpalume::Outcome::mismatched) {
        throw std::runtime_error{"this program and its library don't fit each other"};
    }
    return verdict;
}

} // namespace sites
