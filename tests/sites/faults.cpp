// Put before a program's own calls: from the allocation on whose number is in SITES_ALLOCATION each one fails, and so does the call that SITES_CALL names.
#include <atomic>
#include <cerrno>
#include <cstdio>
#include <cstdlib>
#include <cstring>
#include <dirent.h>
#include <dlfcn.h>
#include <new>
#include <sys/file.h>
#include <sys/stat.h>
#include <unistd.h>

namespace {

std::atomic<long> made = 0;

bool is_failing(const char *name) {
    const char *const fault = std::getenv("SITES_CALL");
    return fault != nullptr && std::strcmp(fault, name) == 0;
}

bool is_folder(int file) {
    struct stat about {};
    return fstat(file, &about) == 0 && S_ISDIR(about.st_mode);
}

// What the call gives where it fails, or what the system's own call gives.
template <typename Result, typename... Words>
Result failing(const char *name, Result failed, Words... words) {
    if (is_failing(name)) {
        errno = EIO;
        return failed;
    }
    return reinterpret_cast<Result (*)(Words...)>(dlsym(RTLD_NEXT, name))(words...);
}

} // namespace

void *operator new(std::size_t size) {
    const char *const first = std::getenv("SITES_ALLOCATION");
    void *const place = first != nullptr && ++made >= std::atol(first) ? nullptr : std::malloc(size);
    if (place == nullptr) {
        throw std::bad_alloc{};
    }
    return place;
}

void operator delete(void *place) noexcept {
    std::free(place);
}

void operator delete(void *place, std::size_t) noexcept {
    std::free(place);
}

extern "C" {

ssize_t write(int file, const void *bytes, size_t count) {
    return failing<ssize_t>("write", -1, file, bytes, count);
}

int fsync(int file) {
    if (is_folder(file) && is_failing("fsync of a folder")) {
        errno = EIO;
        return -1;
    }
    return failing("fsync", -1, file);
}

int flock(int file, int kind) noexcept {
    return failing("flock", -1, file, kind);
}

int fchmod(int file, mode_t mode) noexcept {
    return failing("fchmod", -1, file, mode);
}

int rename(const char *from, const char *to) noexcept {
    return failing("rename", -1, from, to);
}

dirent *readdir(DIR *folder) {
    return failing<dirent *>("readdir", nullptr, folder);
}

} // extern "C"
