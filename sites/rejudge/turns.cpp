#include "turns.hpp"

#include "store.hpp"

#include <filesystem>
#include <map>
#include <string>
#include <system_error>
#include <utility>

namespace sites {

namespace fs = std::filesystem;

namespace {

// A file that may be missing as yet: its folder, and its name there.
using Place = std::pair<Identity, std::string>;

// No more than the system follows, since they may go round.
constexpr int most_links = 40;

fs::path end_of_links(fs::path path) {
    std::error_code gone;
    for (int links = 0; links < most_links && fs::is_symlink(path, gone); links++) {
        path = path.parent_path() / fs::read_symlink(path, gone);
    }
    return path;
}

std::optional<Place> place(const std::string &name) {
    const fs::path path = end_of_links(name);
    const auto folder = identity(path.has_parent_path() ? path.parent_path().native() : ".");
    if (!folder) {
        return std::nullopt;
    }
    return Place{*folder, path.filename().native()};
}

} // namespace

Turns turns(const std::vector<Name> &names) {
    Turns result(names.size());
    std::map<Place, std::size_t> latest;
    for (std::size_t k = 0; k < names.size(); k++) {
        const auto verdict = names[k].kind == Name::Kind::sheet ? place(verdict_name(names[k].path)) : std::nullopt;
        if (!verdict) {
            continue;
        }
        if (const auto [found, first] = latest.try_emplace(*verdict, k); !first) {
            result[k] = std::exchange(found->second, k);
        }
    }
    return result;
}

} // namespace sites
