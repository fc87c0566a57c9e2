// judge: the verdicts on sheets, as the library writes them or in words.
#include "../commands.hpp"
#include "../common/text.hpp"
#include "../common/verdict.hpp"
#include "explanation.hpp"

#include <algorithm>
#include <cstdio>
#include <string>

namespace sites {

namespace {

constexpr std::string_view help = R"(usage: judge [--explain] [--] [FILE]...
Prints the verdict on each sheet, or on standard input. docs/SHEET.md says how a sheet is written.

  --explain  says it in words: where a sheet is refused and why, where the views are broken, and how each needed arrow was drawn
  --help     prints this
  --version  prints the version

Status 0: every sheet is accepted; 1: some sheet is not; 2: something could not be read or written.
)";

constexpr Option options[] = {{"--explain"}};

// A sheet and how it is called.
struct Source {
    std::string name;
    Reading sheet;
};

int fail(const std::string &problem) {
    std::fprintf(stderr, "judge: %s\n", problem.c_str());
    return 2;
}

Source source_of(const std::string &name) {
    return {escaped(name), is_pipe(name) ? read_pipe(name, sheet_reading) : read_file(name, sheet_reading)};
}

int judge_one(const Source &source, bool explain, bool with_name) {
    if (!source.sheet.problem.empty()) {
        return fail(source.name + ": " + source.sheet.problem);
    }
    const std::string_view sheet = source.sheet.bytes;
    const zarpalume::Verdict verdict = verdict_on(sheet);
    const std::string heading = with_name && !explain ? source.name + ":\n" : "";
    const std::string text = heading + (explain ? explained(source.name, sheet, verdict) : std::string{verdict.text()});
    std::fwrite(text.data(), 1, text.size(), stdout);
    if (std::fflush(stdout) != 0) {
        return fail("the verdict on " + source.name + " could not be written");
    }
    return verdict.accepted() ? 0 : 1;
}

int judge(const Options &given) {
    const auto &names = given.names();
    if (names.empty()) {
        if (input_is_terminal()) {
            throw WrongWords{"a file is missing"};
        }
        return judge_one({"standard input", read_standard_input(sheet_reading)}, given.has("--explain"), false);
    }
    int status = 0;
    for (const std::string &name : names) {
        status = std::max(status, judge_one(source_of(name), given.has("--explain"), names.size() > 1));
    }
    return status;
}

} // namespace

const Command judge_command{"judge", help, options, judge};

} // namespace sites
