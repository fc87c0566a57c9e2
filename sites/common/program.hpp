// A command, and what each of them does before and after its own work.
#pragma once

#include "file.hpp"
#include "options.hpp"

#include <span>
#include <string>
#include <string_view>
#include <vector>

namespace sites {

struct Command {
    std::string_view name;
    // What --help prints: the usage on its first line, then what each option does.
    std::string_view help;
    // Beside --help and --version, which every command has.
    std::span<const Option> options;
    // Gives the status.
    int (*run)(const Options &options);
};

// Runs the command that the first word names. Whatever it could not do is told, and is status 2.
int run(std::span<const Command> commands, int count, char **words);

// Whether standard input is a terminal: nobody types a sheet or a list there, so it gets the usage.
bool input_is_terminal() noexcept;

// Standard input, and a pipe or device that has a name: at most so many bytes. They can be read only once.
Reading read_standard_input(std::size_t most);
Reading read_pipe(const std::string &name, std::size_t most);

// Ends standard output, and says whether all of it could be written.
bool end_output() noexcept;

} // namespace sites
