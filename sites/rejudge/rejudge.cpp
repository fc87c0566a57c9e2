// rejudge: judges every sheet that it is given again, and says what is needed, what was drawn, and what changed.
#include "../commands.hpp"
#include "../common/text.hpp"
#include "finding.hpp"
#include "names.hpp"
#include "progress.hpp"
#include "store.hpp"
#include "summary.hpp"
#include "table.hpp"
#include "turns.hpp"
#include "workers.hpp"

#include <algorithm>
#include <charconv>
#include <chrono>
#include <cstdio>
#include <optional>
#include <string>
#include <string_view>
#include <thread>
#include <unistd.h>
#include <utility>
#include <vector>

namespace sites {

namespace {

constexpr std::string_view help = R"(usage: rejudge [--store] [--header] [--only KIND] [--threads N] [--quiet] [--null] [--] [FILE or FOLDER]...
Judges sheets again, and prints a line of a table for each. Without a file or folder their names are read from standard input.
docs/SITES.md has the table's columns.

  --store      writes each verdict that is missing or has changed beside its sheet
  --header     prints the columns' names first
  --only KIND  prints only the lines of sheets that are changed, broken, refused or lost (an arrow is needed and has no drawn path)
  --threads N  judges so many at a time
  --quiet      prints no summary
  --null       names on standard input end with a zero byte and not with a newline
  --help       prints this
  --version    prints the version

Status 0: all as stored, accepted and drawn; 1: somebody has to look; 2: something could not be read or written.
)";

constexpr Option options[] = {{"--store"}, {"--header"}, {"--only", true}, {"--threads", true}, {"--quiet"}, {"--null"}};

std::size_t read_threads(const Options &given) {
    const auto word = given.value("--threads");
    if (!word) {
        return std::max(std::thread::hardware_concurrency(), 1U);
    }
    std::size_t threads = 0;
    const auto [stop, error] = std::from_chars(word->data(), word->data() + word->size(), threads);
    if (error != std::errc{} || stop != word->data() + word->size() || threads == 0) {
        throw WrongWords{"--threads wants a number from 1 on, and not " + escaped(*word)};
    }
    return threads;
}

using Wanted = bool (*)(const Finding &finding);

// Which lines to print.
Wanted read_only(const Options &given) {
    constexpr std::pair<std::string_view, Wanted> kinds[] = {
        {"changed", [](const Finding &finding) { return finding.stored == Stored::changed; }},
        {"broken", [](const Finding &finding) { return finding.outcome == Outcome::broken; }},
        {"refused", [](const Finding &finding) { return finding.outcome == Outcome::refused; }},
        {"lost", [](const Finding &finding) { return finding.counts && finding.counts->no_path > 0; }},
    };
    const auto word = given.value("--only");
    if (!word) {
        return [](const Finding &) { return true; };
    }
    for (const auto &[kind, wanted] : kinds) {
        if (*word == kind) {
            return wanted;
        }
    }
    throw WrongWords{"--only wants changed, broken, refused or lost, and not " + escaped(*word)};
}

// Where the list can't be read to its end, its last name may be cut: none of it is taken.
std::string add_list(Search &search, char name_end) {
    const Reading list = read_standard_input(std::string::npos);
    for (std::string_view rest = list.bytes; !rest.empty();) {
        if (const std::string_view name = take_line(rest, name_end); !name.empty()) {
            search.add(std::string{name});
        }
    }
    return list.problem;
}

// Writes each line as soon as it and all before it are there.
Summary judge_all(const std::vector<Name> &names, bool storing, std::size_t threads, const Table &table, Wanted wanted) {
    std::vector<Finding> findings(names.size());
    const auto store = storing ? std::optional<Store>{names} : std::nullopt;
    Workers workers{storing ? turns(names) : Turns(names.size()), threads, [&](std::size_t k) { findings[k] = find(names[k], store); }};
    Progress progress{names.size()};
    Summary summary;
    for (std::size_t k = 0; k < names.size(); k++) {
        while (!workers.wait(k, std::chrono::milliseconds{100})) {
            std::fflush(stdout);
            progress.show(workers.done());
        }
        const Finding finding = std::move(findings[k]);
        if (wanted(finding)) {
            progress.make_way();
            table.print(row(finding));
        }
        progress.show(workers.done());
        summary.add(finding);
    }
    return summary;
}

int rejudge(const Options &given) {
    const std::size_t threads = read_threads(given);
    const Wanted wanted = read_only(given);
    if (given.names().empty() && input_is_terminal()) {
        throw WrongWords{"a file or folder is missing"};
    }
    Search search;
    for (const std::string &name : given.names()) {
        search.add(name);
    }
    if (given.names().empty()) {
        if (const std::string problem = add_list(search, given.has("--null") ? '\0' : '\n'); !problem.empty()) {
            std::fprintf(stderr, "rejudge: the list of names could not be read: %s\n", problem.c_str());
            return 2;
        }
    }
    const std::vector<Name> names = search.found();
    const Table table{names};
    if (given.has("--header")) {
        table.print_header();
    }
    const Summary summary = judge_all(names, given.has("--store"), threads, table, wanted);
    if (!end_output()) {
        std::fputs("rejudge: the table could not be written\n", stderr);
        return 2;
    }
    if (!given.has("--quiet")) {
        std::fputs(summary.text().c_str(), stderr);
    }
    return summary.status();
}

} // namespace

const Command rejudge_command{"rejudge", help, options, rejudge};

} // namespace sites
