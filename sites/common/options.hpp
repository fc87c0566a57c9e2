// The words of a command line.
#pragma once

#include <map>
#include <optional>
#include <span>
#include <stdexcept>
#include <string>
#include <string_view>
#include <vector>

namespace sites {

struct Option {
    std::string_view word;
    bool has_value = false;
};

// What is wrong with the words of a command line.
class WrongWords : public std::runtime_error {
    using std::runtime_error::runtime_error;
};

// Options stand anywhere before --, which is wanted only before names that begin with a dash.
class Options {
public:
    Options(std::span<const Option> known, const std::vector<std::string> &words);

    bool has(std::string_view word) const { return given_.contains(word); }
    std::optional<std::string> value(std::string_view word) const;
    const std::vector<std::string> &names() const noexcept { return names_; }

private:
    std::map<std::string, std::string, std::less<>> given_;
    std::vector<std::string> names_;
};

} // namespace sites
