#include "options.hpp"

#include "text.hpp"

#include <algorithm>

namespace sites {

Options::Options(std::span<const Option> known, const std::vector<std::string> &words) {
    bool names_only = false;
    for (std::size_t k = 0; k < words.size(); k++) {
        const std::string &word = words[k];
        // A dash alone is a name.
        if (names_only || word.size() < 2 || word.front() != '-') {
            names_.push_back(word);
            continue;
        }
        if (word == "--") {
            names_only = true;
            continue;
        }
        const auto option = std::find_if(known.begin(), known.end(), [&](const Option &each) { return each.word == word; });
        if (option == known.end()) {
            throw WrongWords{"unknown option " + escaped(word)};
        }
        if (option->has_value && k + 1 == words.size()) {
            throw WrongWords{word + " wants a value"};
        }
        given_[word] = option->has_value ? words[++k] : "";
    }
}

std::optional<std::string> Options::value(std::string_view word) const {
    const auto found = given_.find(word);
    return found == given_.end() ? std::nullopt : std::optional{found->second};
}

} // namespace sites
