// Files as a site has them: any of them may be missing, huge, shut, or no file at all.
#pragma once

#include <compare>
#include <cstddef>
#include <optional>
#include <string>
#include <string_view>
#include <sys/stat.h>
#include <zarpalume.h>

namespace sites {

// One byte more than a sheet may have, so that a longer file is refused for its length and not read to its end.
inline constexpr std::size_t sheet_reading = ZARPALUME_SHEET_BYTES + 1;

// An open file, shut at the end.
class Descriptor {
public:
    // The mode is that of a file which is made.
    Descriptor(const std::string &name, int flags, mode_t mode = 0);
    // One that is open already.
    explicit Descriptor(int number) noexcept : number_{number} {}
    Descriptor(Descriptor &&other) noexcept;
    Descriptor &operator=(Descriptor &&) = delete;
    ~Descriptor();

    bool open() const noexcept { return number_ >= 0; }
    int number() const noexcept { return number_; }

private:
    int number_;
};

// Which file it is, under any of its names.
struct Identity {
    dev_t device{};
    ino_t number{};

    friend auto operator<=>(const Identity &, const Identity &) = default;
};

Identity identity(const struct stat &about) noexcept;
// Links are followed; nothing where the file can't be looked at, and errno says why.
std::optional<Identity> identity(const std::string &name) noexcept;

// The problem is empty where the bytes were read.
struct Reading {
    std::string bytes{};
    std::string problem{};
    bool missing = false;
};

// The first bytes of a file, at most so many. A link that leads nowhere isn't missing.
Reading read_file(const std::string &name, std::size_t most);

// Whether there is a pipe, a device or a socket of this name.
bool is_pipe(const std::string &name) noexcept;

// What is left of an open file, at most so many bytes.
Reading read_open(int file, std::size_t most);

bool write_all(int file, std::string_view bytes);

// What errno says, in words.
std::string last_problem();

} // namespace sites
