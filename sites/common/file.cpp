#include "file.hpp"

#include <algorithm>
#include <cerrno>
#include <fcntl.h>
#include <system_error>
#include <unistd.h>
#include <utility>

namespace sites {

namespace {

// How much is asked for at a time: a sheet comes in one piece.
constexpr std::size_t piece = 65'536;

Reading failed() {
    return {{}, last_problem()};
}

bool is_link(const std::string &name) {
    struct stat about {};
    return ::lstat(name.c_str(), &about) == 0 && S_ISLNK(about.st_mode);
}

} // namespace

Descriptor::Descriptor(const std::string &name, int flags, mode_t mode) : number_{::open(name.c_str(), flags | O_CLOEXEC, mode)} {}

Descriptor::Descriptor(Descriptor &&other) noexcept : number_{std::exchange(other.number_, -1)} {}

Descriptor::~Descriptor() {
    if (open()) {
        // What went wrong before is told after it.
        const int kept = errno;
        ::close(number_);
        errno = kept;
    }
}

Identity identity(const struct stat &about) noexcept {
    return {about.st_dev, about.st_ino};
}

std::optional<Identity> identity(const std::string &name) noexcept {
    struct stat about {};
    if (::stat(name.c_str(), &about) != 0) {
        return std::nullopt;
    }
    return identity(about);
}

Reading read_file(const std::string &name, std::size_t most) {
    // A pipe would be waited for otherwise.
    const Descriptor file{name, O_RDONLY | O_NONBLOCK};
    struct stat about {};
    if (!file.open() || ::fstat(file.number(), &about) != 0) {
        const bool nothing_there = errno == ENOENT;
        Reading result = failed();
        result.missing = nothing_there && !is_link(name);
        return result;
    }
    if (!S_ISREG(about.st_mode)) {
        return {{}, S_ISDIR(about.st_mode) ? "a folder, not a file" : "not a regular file"};
    }
    return read_open(file.number(), most);
}

bool is_pipe(const std::string &name) noexcept {
    struct stat about {};
    return ::stat(name.c_str(), &about) == 0 && !S_ISREG(about.st_mode) && !S_ISDIR(about.st_mode);
}

Reading read_open(int file, std::size_t most) {
    std::string bytes;
    while (bytes.size() < most) {
        const std::size_t length = bytes.size();
        bytes.resize(std::min(length + piece, most));
        const ssize_t count = ::read(file, bytes.data() + length, bytes.size() - length);
        if (count < 0 && errno != EINTR) {
            return failed();
        }
        bytes.resize(length + static_cast<std::size_t>(std::max<ssize_t>(count, 0)));
        if (count == 0) {
            break;
        }
    }
    return {std::move(bytes)};
}

bool write_all(int file, std::string_view bytes) {
    while (!bytes.empty()) {
        const ssize_t count = ::write(file, bytes.data(), bytes.size());
        if (count < 0 && errno != EINTR) {
            return false;
        }
        bytes.remove_prefix(static_cast<std::size_t>(count < 0 ? 0 : count));
    }
    return true;
}

std::string last_problem() {
    return std::generic_category().message(errno);
}

} // namespace sites
