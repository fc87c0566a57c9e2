// Which sheets to judge: the files that were named, and each *.sheet below the folders that were named.
#pragma once

#include "../common/file.hpp"

#include <cstdint>
#include <set>
#include <string>
#include <vector>

namespace sites {

struct Name {
    // Skipped: a link to a folder that is looked into anyway. Unread: what could not be looked at.
    enum class Kind : std::uint8_t { sheet, skipped, unread };

    std::string path;
    Kind kind = Kind::sheet;
    // Why it is no sheet, and which file it is if it is one.
    std::string reason{};
    Identity identity{};
};

class Search {
public:
    void add(const std::string &given);

    // In the order of the names' bytes, each path once.
    std::vector<Name> found();

private:
    void add_sheet(const std::string &path, const struct stat &about);
    void add_unread(const std::string &path, const std::string &reason);
    void walk(const std::string &top);
    void look_into(const std::string &folder, std::vector<std::string> &folders);
    void look_at(const std::string &path, unsigned char type, std::vector<std::string> &folders);
    void look_behind(const std::string &path);
    void tell_links();

    std::vector<Name> names_;
    std::vector<std::string> links_;
    std::set<Identity> visited_;
};

} // namespace sites
