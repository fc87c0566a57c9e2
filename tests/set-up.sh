# shellcheck shell=bash
# Sourced by the host tests, at the repository's top: compilers, the emulator, and what several of them build.

folder=target/tests
archive=target/staticlib/libzarpalume.a
mkdir -p "$folder"
source tools/compilers.sh

# want COMMAND PACKAGE...: installs the packages where the command is missing, one test at a time.
want() {
  command -v "$1" >/dev/null && return
  (
    flock 9
    apt-get install -y "${@:2}" || { apt-get update && apt-get install -y "${@:2}"; }
  ) >/dev/null 2>&1 9>"$folder/lock"
  command -v "$1" >/dev/null || { echo "$1 is missing, and apt-get install ${*:2} did not bring it"; return 1; }
}

want_compilers() {
  want "$c_compiler" "${compiler_packages[@]}" && want "$cpp_compiler" "${compiler_packages[@]}" &&
    { ((${#emulator[@]} == 0)) || want "${emulator[0]}" qemu-user; }
}

# The proved library; the first host test that asks has it built.
make_archive() {
  tools/fresh "$archive" tools/build archive >"$folder/staticlib.log" 2>&1 || { cat "$folder/staticlib.log"; return 1; }
}

# The oldest rustc that knows what the tests' Rust uses; a distribution may have one that is older.
oldest_rustc=1.82.0

rustc_is_new() {
  local version
  version=$(rustc --version | cut -d ' ' -f 2)
  [[ $(printf '%s\n' "$oldest_rustc" "$version" | sort -V | head -n 1) == "$oldest_rustc" ]] ||
    { echo "rustc $version is too old; the tests need $oldest_rustc, which rustup brings"; return 1; }
}

# make_rust NAME SOURCE...: a Rust program of the tests, from the first of its sources; one test at a time makes it.
make_rust() {
  local made=$folder/$1 source
  want rustc rustc && rustc_is_new || return 1
  (
    flock 9
    for source in "${@:2}"; do
      if [[ ! $made -nt $source ]]; then
        rustc -O --edition 2021 -o "$made" "$2"
        exit
      fi
    done
  ) 9>"$made.lock"
}

make_second() {
  make_rust second tests/second/second.rs tests/second/*.rs
}

make_requests() {
  make_rust requests tests/requests/main.rs tests/requests/*.rs
}

# The verdict requests, and the second program's answers to them.
make_answers() {
  make_second && make_requests &&
    "$folder/requests" make 1 4000 letters=V >"$folder/requests.bin" && "$folder/second" serve <"$folder/requests.bin" >"$folder/second.bin"
}

# make_cpp NAME COMPILER [FLAG or SOURCE...]: a C++ program of the tests, which any warning stops.
make_cpp() {
  "$2" -std=c++20 -O1 -pthread -Wall -Wextra -Wpedantic -Wconversion -Wshadow -Werror -Iinclude -o "$folder/cpp-$1" "tests/cpp/$1.cpp" "${@:3}"
}

# The program that answers requests for edits by the proved library.
make_edits() {
  want_compilers && make_archive && make_cpp edits "$cpp_compiler" "$archive"
}

# make_program NAME: a proved program.
make_program() {
  want_compilers || return 1
  tools/fresh "target/bin/$1" tools/build "$1" >"$folder/$1.log" 2>&1 || { cat "$folder/$1.log"; return 1; }
}

passed=0
failed=0

# Counts a command that must end with 0.
count() { # COMMAND...
  if "$@"; then
    passed=$((passed + 1))
  else
    echo "$(basename "$0"): FAILED: $*"
    failed=$((failed + 1))
  fi
}

# Prints the last line that the gate reads, and ends the test.
finish() { # PASSED FAILED
  echo "$1 passed, $2 failed"
  exit $(($2 > 0))
}
