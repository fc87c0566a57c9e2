// draw: a sheet and its verdict as pictures, or as what Graphviz is given.
#include "../commands.hpp"
#include "../common/text.hpp"
#include "../common/verdict.hpp"
#include "dot.hpp"
#include "picture.hpp"

#include <cstdio>
#include <filesystem>
#include <span>
#include <string>

namespace sites {

namespace {

constexpr std::string_view help = R"(usage: draw [--only lost] [--] SHEET [PICTURE]...
Draws a sheet and its verdict. Each picture's ending says its kind, as svg or png; without a picture it prints what Graphviz is given.
docs/SITES.md says what the lines and colours mean.

  --only lost  draws only needed arrows with no drawn path, and their boxes
  --help       prints this
  --version    prints the version

Status 0: drawn, whatever the verdict is; 2: something could not be read, drawn or written.
)";

constexpr Option options[] = {{"--only", true}};

Shown read_only(const Options &given) {
    const auto word = given.value("--only");
    if (word && *word != "lost") {
        throw WrongWords{"--only wants lost, and not " + escaped(*word)};
    }
    return word ? Shown::lost : Shown::everything;
}

int fail(const std::string &problem) {
    std::fprintf(stderr, "draw: %s\n", problem.c_str());
    return 2;
}

// What is wrong before anything is drawn; empty where nothing is.
std::string problem_before(const std::string &sheet, std::span<const std::string> pictures) {
    if (!pictures.empty() && !on_path("dot")) {
        return "dot is missing; Debian has it in the package graphviz";
    }
    for (const std::string &picture : pictures) {
        if (const auto same = identity(picture); same && same == identity(sheet)) {
            return escaped(picture) + " is the sheet, and left alone";
        }
    }
    return {};
}

int draw(const Options &given) {
    if (given.names().empty()) {
        throw WrongWords{"a sheet is missing"};
    }
    const Shown shown = read_only(given);
    const std::string &name = given.names().front();
    const std::span<const std::string> pictures = std::span{given.names()}.subspan(1);
    const Reading sheet = read_file(name, sheet_reading);
    if (!sheet.problem.empty()) {
        return fail(escaped(name) + ": " + sheet.problem);
    }
    if (const std::string problem = problem_before(name, pictures); !problem.empty()) {
        return fail(problem);
    }
    const zarpalume::Verdict verdict = verdict_on(sheet.bytes);
    const std::string graph = dot(std::filesystem::path{name}.filename().native(), sheet.bytes, verdict, shown);
    for (const std::string &picture : pictures) {
        if (const std::string problem = draw_picture(graph, picture); !problem.empty()) {
            return fail(escaped(picture) + ": " + problem);
        }
    }
    if (pictures.empty()) {
        std::fwrite(graph.data(), 1, graph.size(), stdout);
        if (!end_output()) {
            return fail("what dot is given could not be written");
        }
    }
    return 0;
}

} // namespace

const Command draw_command{"draw", help, options, draw};

} // namespace sites
