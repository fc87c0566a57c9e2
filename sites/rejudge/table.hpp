// The table's lines: parted by tabs, or aligned where people look at them.
#pragma once

#include "finding.hpp"
#include "names.hpp"

#include <array>
#include <cstddef>
#include <vector>

namespace sites {

class Table {
public:
    // Paths are known before anything is judged, so that a line can be printed as soon as it is there.
    explicit Table(const std::vector<Name> &names);

    void print_header() const;
    void print(const Row &row) const;

private:
    bool aligned_;
    std::array<std::size_t, columns.size()> widths_;
};

} // namespace sites
