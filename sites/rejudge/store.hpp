// Verdicts on disk: what stands there is whole at any time, whoever stops the program.
#pragma once

#include "../common/file.hpp"
#include "names.hpp"

#include <optional>
#include <set>
#include <string>
#include <string_view>
#include <vector>

namespace sites {

// NAME.verdict for NAME.sheet, and for any other name with the ending added.
std::string verdict_name(const std::string &sheet);

class Store {
public:
    // All names that are judged, since no sheet may be written to, whichever verdict has its name.
    explicit Store(const std::vector<Name> &names);

    // Replaces a verdict in one step; gives the problem where it could not, and an empty text where it did.
    std::string replace(const std::string &name, std::string_view bytes) const;

    // Removes what a stopped run has left beside a verdict that is right.
    void tidy(const std::string &name) const;

private:
    // Why a file that is there has to stay; empty where it may go.
    std::string why_kept(const Descriptor &file) const;
    // A file of our own, locked; nothing where there is a problem.
    std::optional<Descriptor> open_alone(const std::string &name, mode_t mode, std::string &problem) const;
    // Removes a file that nobody writes to; gives the problem where it could not.
    std::string remove_left(const std::string &name, int lock_kind) const;

    std::set<Identity> sheets_;
};

} // namespace sites
