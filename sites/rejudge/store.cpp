#include "store.hpp"

#include <cerrno>
#include <cstdio>
#include <fcntl.h>
#include <sys/file.h>
#include <tuple>
#include <unistd.h>

namespace sites {

namespace {

constexpr mode_t first_mode = 0666;
// Nobody else may look into a verdict before it has the mode of the one that it replaces.
constexpr mode_t private_mode = 0600;
constexpr mode_t mode_bits = 07777;

// No verdict begins so.
constexpr std::string_view sheet_start = "sheet\t";

std::string new_name(const std::string &verdict) {
    return verdict + ".new";
}

bool lock(int file, int kind) {
    while (::flock(file, kind) != 0) {
        if (errno != EINTR) {
            return false;
        }
    }
    return true;
}

// Whether the name still stands for the open file: whoever held it before may have renamed it.
bool still_named(const std::string &name, int file) {
    struct stat opened {};
    struct stat named {};
    if (::lstat(name.c_str(), &named) != 0) {
        // What else is wrong shows when it is renamed or removed.
        return errno != ENOENT;
    }
    return ::fstat(file, &opened) == 0 && identity(opened) == identity(named);
}

// Only root may give a file away, so owner and group are kept where the system lets us; the mode always.
bool keep_access(int stored, int file) {
    struct stat about {};
    if (::fstat(stored, &about) != 0) {
        return false;
    }
    std::ignore = ::fchown(file, static_cast<uid_t>(-1), about.st_gid);
    std::ignore = ::fchown(file, about.st_uid, static_cast<gid_t>(-1));
    return ::fchmod(file, about.st_mode & mode_bits) == 0;
}

// A rename lasts when its folder is on the disk; some file systems have no such thing, and say EINVAL.
bool sync_folder(const std::string &file) {
    const std::size_t slash = file.rfind('/');
    const Descriptor folder{slash == std::string::npos ? "." : file.substr(0, slash + 1), O_RDONLY | O_DIRECTORY};
    return folder.open() && (::fsync(folder.number()) == 0 || errno == EINVAL);
}

} // namespace

std::string verdict_name(const std::string &sheet) {
    constexpr std::string_view ending = ".sheet";
    const std::size_t stem = sheet.ends_with(ending) ? sheet.size() - ending.size() : sheet.size();
    return sheet.substr(0, stem) + ".verdict";
}

Store::Store(const std::vector<Name> &names) {
    for (const Name &name : names) {
        if (name.kind == Name::Kind::sheet) {
            sheets_.insert(name.identity);
        }
    }
}

std::string Store::replace(const std::string &name, std::string_view bytes) const {
    const Descriptor stored{name, O_RDONLY | O_NOFOLLOW | O_NONBLOCK};
    const bool first = !stored.open() && errno == ENOENT;
    std::string problem = first ? "" : why_kept(stored);
    if (!problem.empty()) {
        return problem;
    }
    const std::string temporary = new_name(name);
    const auto file = open_alone(temporary, first ? first_mode : private_mode, problem);
    if (!file) {
        return problem;
    }
    if (write_all(file->number(), bytes) && ::fsync(file->number()) == 0 && (first || keep_access(stored.number(), file->number())) &&
        std::rename(temporary.c_str(), name.c_str()) == 0) {
        return sync_folder(name) ? "" : "its folder: " + last_problem();
    }
    problem = last_problem();
    ::unlink(temporary.c_str());
    return problem;
}

void Store::tidy(const std::string &name) const {
    // What somebody is writing isn't left, and what can't be removed does no harm.
    remove_left(new_name(name), LOCK_EX | LOCK_NB);
}

std::string Store::why_kept(const Descriptor &file) const {
    if (!file.open()) {
        return errno == ELOOP ? "a link is left alone" : last_problem();
    }
    struct stat about {};
    if (::fstat(file.number(), &about) != 0) {
        return last_problem();
    }
    if (!S_ISREG(about.st_mode)) {
        return "not a regular file";
    }
    const Reading start = read_open(file.number(), sheet_start.size());
    if (sheets_.contains(identity(about)) || start.bytes == sheet_start) {
        return "a sheet is left alone";
    }
    return start.problem;
}

std::optional<Descriptor> Store::open_alone(const std::string &name, mode_t mode, std::string &problem) const {
    for (;;) {
        Descriptor file{name, O_WRONLY | O_CREAT | O_EXCL, mode};
        if (!file.open()) {
            // One that was left is never written to, since it may have other names.
            problem = errno == EEXIST ? remove_left(name, LOCK_EX) : last_problem();
        } else if (!lock(file.number(), LOCK_EX)) {
            problem = last_problem();
            ::unlink(name.c_str());
        } else if (still_named(name, file.number())) {
            return file;
        }
        // Otherwise it was taken for one that was left, before it was locked.
        if (!problem.empty()) {
            return std::nullopt;
        }
    }
}

std::string Store::remove_left(const std::string &name, int lock_kind) const {
    const Descriptor left{name, O_RDWR | O_NOFOLLOW | O_NONBLOCK};
    if (!left.open() && errno == ENOENT) {
        return {};
    }
    if (const std::string why = why_kept(left); !why.empty()) {
        return "its .new: " + why;
    }
    if (!lock(left.number(), lock_kind) || (still_named(name, left.number()) && ::unlink(name.c_str()) != 0)) {
        return last_problem();
    }
    return {};
}

} // namespace sites
