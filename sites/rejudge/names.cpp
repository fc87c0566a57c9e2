#include "names.hpp"

#include <algorithm>
#include <cerrno>
#include <dirent.h>
#include <memory>
#include <string_view>

namespace sites {

namespace {

struct Shut {
    void operator()(DIR *folder) const noexcept { ::closedir(folder); }
};

// The library's own walk would abort where memory is short.
using Folder = std::unique_ptr<DIR, Shut>;

// Nothing at the end, and where there is a problem: errno is 0 then, or not.
const dirent *next_entry(const Folder &folder) {
    errno = 0;
    return ::readdir(folder.get());
}

bool is_sheet(std::string_view path) {
    return path.ends_with(".sheet");
}

std::string below(const std::string &folder, const std::string &name) {
    return folder + (folder.ends_with('/') ? "" : "/") + name;
}

// Not every file system says at once what an entry is.
unsigned char type_of(const dirent &entry, const std::string &path) {
    struct stat about {};
    if (entry.d_type != DT_UNKNOWN) {
        return entry.d_type;
    }
    if (::lstat(path.c_str(), &about) == 0) {
        return IFTODT(about.st_mode);
    }
    // What is gone by now was no folder of ours.
    return errno == ENOENT ? DT_REG : DT_UNKNOWN;
}

} // namespace

void Search::add(const std::string &given) {
    // The system would take the part before the zero byte for the name.
    if (given.find('\0') != std::string::npos) {
        add_unread(given, "a name with a zero byte: such a list wants --null");
        return;
    }
    struct stat about {};
    if (::stat(given.c_str(), &about) != 0) {
        add_unread(given, last_problem());
    } else if (S_ISDIR(about.st_mode)) {
        walk(given);
    } else {
        add_sheet(given, about);
    }
}

std::vector<Name> Search::found() {
    tell_links();
    std::stable_sort(names_.begin(), names_.end(), [](const Name &one, const Name &other) { return one.path < other.path; });
    const auto same = [](const Name &one, const Name &other) { return one.path == other.path; };
    names_.erase(std::unique(names_.begin(), names_.end(), same), names_.end());
    return std::move(names_);
}

// A sheet is known by its file before anything is stored.
void Search::add_sheet(const std::string &path, const struct stat &about) {
    names_.push_back({.path = path, .identity = identity(about)});
}

void Search::add_unread(const std::string &path, const std::string &reason) {
    names_.push_back({.path = path, .kind = Name::Kind::unread, .reason = reason});
}

void Search::walk(const std::string &top) {
    std::vector<std::string> folders{top};
    while (!folders.empty()) {
        const std::string folder = std::move(folders.back());
        folders.pop_back();
        look_into(folder, folders);
    }
}

void Search::look_into(const std::string &folder, std::vector<std::string> &folders) {
    if (const auto visited = identity(folder)) {
        visited_.insert(*visited);
    }
    const Folder open{::opendir(folder.c_str())};
    if (!open) {
        add_unread(folder, last_problem());
        return;
    }
    while (const dirent *entry = next_entry(open)) {
        const std::string name = entry->d_name;
        if (name != "." && name != "..") {
            const std::string path = below(folder, name);
            look_at(path, type_of(*entry, path), folders);
        }
    }
    if (errno != 0) {
        add_unread(folder, last_problem());
    }
}

// Links to folders are not followed, so that a walk always ends.
void Search::look_at(const std::string &path, unsigned char type, std::vector<std::string> &folders) {
    if (type == DT_DIR) {
        folders.push_back(path);
    } else if (type == DT_LNK || type == DT_UNKNOWN || is_sheet(path)) {
        look_behind(path);
    }
}

// What can't be looked at may be a folder with sheets in it.
void Search::look_behind(const std::string &path) {
    struct stat about {};
    if (::stat(path.c_str(), &about) != 0) {
        add_unread(path, last_problem());
    } else if (S_ISDIR(about.st_mode)) {
        links_.push_back(path);
    } else if (is_sheet(path)) {
        add_sheet(path, about);
    }
}

// Only after all walks is it known which links lead to a folder that was looked into.
void Search::tell_links() {
    for (const std::string &link : links_) {
        const auto folder = identity(link);
        if (!folder) {
            add_unread(link, last_problem());
        } else if (visited_.contains(*folder)) {
            names_.push_back({.path = link, .kind = Name::Kind::skipped, .reason = "a link to a folder that is looked into anyway"});
        } else {
            add_unread(link, "a link to another folder is not followed: name it as well");
        }
    }
}

} // namespace sites
