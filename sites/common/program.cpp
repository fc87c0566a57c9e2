#include "program.hpp"

#include "text.hpp"

#include <zarpalume.h>

#include <algorithm>
#include <cstdio>
#include <exception>
#include <fcntl.h>
#include <new>
#include <unistd.h>

namespace sites {

namespace {

// A closed descriptor would become the next file that is opened, and the table would go into it.
// The input is opened for writing and the output for reading: neither may look as if it worked.
bool open_standard_descriptors() noexcept {
    constexpr int flags[] = {O_WRONLY, O_RDONLY, O_WRONLY};
    for (const int descriptor : {STDIN_FILENO, STDOUT_FILENO, STDERR_FILENO}) {
        // The lowest that is closed is the one that is opened.
        if (::fcntl(descriptor, F_GETFD) < 0 && ::open("/dev/null", flags[descriptor]) != descriptor) {
            return false;
        }
    }
    return true;
}

constexpr std::string_view version = "zarpalume " ZARPALUME_VERSION "\n";

int print(std::string_view text) {
    std::fwrite(text.data(), 1, text.size(), stdout);
    return end_output() ? 0 : 2;
}

int run_command(const Command &command, std::span<char *const> words) {
    std::vector<Option> known{command.options.begin(), command.options.end()};
    known.insert(known.end(), {{"--help"}, {"--version"}});
    const Options options{known, {words.begin(), words.end()}};
    if (options.has("--help")) {
        return print(command.help);
    }
    if (options.has("--version")) {
        return print(version);
    }
    return command.run(options);
}

// The first line of the help.
std::string usage(const Command &command) {
    std::string_view help = command.help;
    return std::string{take_line(help)};
}

std::string usages(std::span<const Command> commands) {
    std::string result;
    for (const Command &command : commands) {
        result.append(result.empty() ? "" : "\n").append(usage(command));
    }
    return result;
}

// What went wrong is said in the command's name.
int run_safely(const Command &command, std::span<char *const> words) {
    const std::string name{command.name};
    try {
        return run_command(command, words);
    } catch (const WrongWords &wrong) {
        std::fprintf(stderr, "%s: %s\n%s\n", name.c_str(), wrong.what(), usage(command).c_str());
    } catch (const std::bad_alloc &) {
        std::fprintf(stderr, "%s: out of memory\n", name.c_str());
    } catch (const std::exception &problem) {
        std::fprintf(stderr, "%s: %s\n", name.c_str(), problem.what());
    }
    return 2;
}

} // namespace

int run(std::span<const Command> commands, int count, char **words) {
    if (!open_standard_descriptors()) {
        std::fputs("zarpalume: /dev/null can't be opened\n", stderr);
        return 2;
    }
    const std::string_view name = count > 1 ? words[1] : "";
    const auto command = std::find_if(commands.begin(), commands.end(), [&](const Command &each) { return each.name == name; });
    try {
        if (command != commands.end()) {
            return run_safely(*command, std::span{words + 2, words + count});
        }
        if (name == "--help") {
            return print(usages(commands) + "\n");
        }
        if (name == "--version") {
            return print(version);
        }
        std::fprintf(stderr, "zarpalume: %s\n%s\n", name.empty() ? "a command is missing" : ("no command " + escaped(name)).c_str(), usages(commands).c_str());
    } catch (const std::bad_alloc &) {
        std::fputs("zarpalume: out of memory\n", stderr);
    }
    return 2;
}

bool input_is_terminal() noexcept {
    return ::isatty(STDIN_FILENO) == 1;
}

bool end_output() noexcept {
    const bool written = std::ferror(stdout) == 0;
    return std::fclose(stdout) == 0 && written;
}

} // namespace sites
