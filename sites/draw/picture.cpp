#include "picture.hpp"

#include "../common/file.hpp"
#include "../common/text.hpp"

#include <array>
#include <cerrno>
#include <cstdio>
#include <cstdlib>
#include <fcntl.h>
#include <spawn.h>
#include <sys/mman.h>
#include <sys/wait.h>
#include <unistd.h>

extern char **environ;

namespace sites {

namespace {

constexpr std::string_view no_picture = "dot could not draw it";

// What dot reads: a file without a name, so that neither waits for the other.
Descriptor graph_file(const std::string &graph) {
    Descriptor file{::memfd_create("graph", MFD_CLOEXEC)};
    if (file.open() && (!write_all(file.number(), graph) || ::lseek(file.number(), 0, SEEK_SET) != 0)) {
        return Descriptor{-1};
    }
    return file;
}

// Starts dot with its input and output; -1 where it can't be started.
pid_t start_dot(std::string kind, int input, int output) {
    std::string program = "dot";
    std::string option = "-T" + std::move(kind);
    char *words[] = {program.data(), option.data(), nullptr};
    posix_spawn_file_actions_t actions;
    posix_spawn_file_actions_init(&actions);
    posix_spawn_file_actions_adddup2(&actions, input, STDIN_FILENO);
    posix_spawn_file_actions_adddup2(&actions, output, STDOUT_FILENO);
    pid_t process = -1;
    const int problem = ::posix_spawnp(&process, words[0], &actions, nullptr, words, environ);
    posix_spawn_file_actions_destroy(&actions);
    return problem == 0 ? process : -1;
}

bool ended_well(pid_t process) {
    int status = 0;
    while (::waitpid(process, &status, 0) < 0) {
        if (errno != EINTR) {
            return false;
        }
    }
    return WIFEXITED(status) && WEXITSTATUS(status) == 0;
}

// All that dot writes.
Reading drawn_by_dot(const std::string &graph, const std::string &kind) {
    const Descriptor input = graph_file(graph);
    std::array<int, 2> ends{-1, -1};
    if (!input.open() || ::pipe2(ends.data(), O_CLOEXEC) != 0) {
        return {{}, last_problem()};
    }
    const Descriptor from_dot{ends[0]};
    pid_t process = -1;
    {
        const Descriptor to_us{ends[1]};
        process = start_dot(kind, input.number(), to_us.number());
    }
    if (process < 0) {
        return {{}, std::string{no_picture}};
    }
    Reading picture = read_open(from_dot.number(), std::string::npos);
    if (!ended_well(process) && picture.problem.empty()) {
        picture.problem = no_picture;
    }
    return picture;
}

// The mode that a new file has.
mode_t new_mode() {
    const mode_t mask = ::umask(0);
    ::umask(mask);
    return 0666 & ~mask;
}

} // namespace

bool on_path(std::string_view program) {
    const char *const path = std::getenv("PATH");
    for (std::string_view rest = path == nullptr ? "" : path; !rest.empty();) {
        const std::string folder{take_line(rest, ':')};
        if (::access((folder + "/" + std::string{program}).c_str(), X_OK) == 0) {
            return true;
        }
    }
    return false;
}

std::string draw_picture(const std::string &graph, const std::string &picture) {
    const Reading drawn = drawn_by_dot(graph, picture.substr(picture.rfind('.') + 1));
    if (!drawn.problem.empty()) {
        return drawn.problem;
    }
    std::string name = picture + ".XXXXXX";
    const Descriptor file{::mkostemp(name.data(), O_CLOEXEC)};
    if (!file.open()) {
        return last_problem();
    }
    if (write_all(file.number(), drawn.bytes) && ::fchmod(file.number(), new_mode()) == 0 && ::fsync(file.number()) == 0 &&
        std::rename(name.c_str(), picture.c_str()) == 0) {
        return {};
    }
    const std::string problem = last_problem();
    ::unlink(name.c_str());
    return problem;
}

} // namespace sites
