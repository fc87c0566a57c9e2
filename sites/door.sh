# shellcheck shell=bash disable=SC2154
# Sourced by ./judge, ./rejudge, ./draw and sites/build: runs a command of the program, which is built first where it is older than what it is made from.
set -u
top=$(dirname "$(dirname "$(readlink -f "${BASH_SOURCE[0]}")")")
source "$top/tools/compilers.sh"
folder=$top/target/sites
program=$folder/zarpalume
archive=$top/target/staticlib/libzarpalume.a

# A closed descriptor would become the next file that is opened. The input is opened for writing and the output for reading:
# neither may look as if it worked.
{ true 3<&0; } 2>/dev/null || exec 0>/dev/null
{ true 3>&1; } 2>/dev/null || exec 1</dev/null
true 3>&2 || exec 2>/dev/null

fail() { # TEXT
  echo "${0##*/}: $1" >&2
  exit 2
}

need() { # PROGRAM WHERE-IT-COMES-FROM
  command -v "$1" >/dev/null || fail "$1 is missing; $2"
}

# What the prover keeps in a crate's out/ is no source, so the crate's own folder doesn't count either.
is_old() { # FILE SOURCE...
  [[ ! -f $1 || -n $(find "${@:2}" -path "$top/crates/*/out" -prune -o ! \( -type d -path "$top/crates/*" ! -path "$top/crates/*/*" \) -newer "$1" -print -quit) ]]
}

# Renamed when it is whole, so that a stopped one is made again.
compile() { # RESULT SOURCE or FLAG...
  need "$cpp_compiler" "Debian has it in the package ${compiler_packages[1]}"
  "$cpp_compiler" -std=c++20 -O2 -pthread -Wall -Wextra -Wpedantic -Wconversion -Wshadow -Werror -I"$top/include" -o "$1.new" "${@:2}" ||
    fail "${1#"$top/"} could not be built"
  mv "$1.new" "$1"
}

# The last thing that the prover has said, and the seconds; where nobody looks at it, a line for each crate.
show_progress() {
  local line='' start=$SECONDS status
  if [[ ! -t 2 ]]; then
    grep --line-buffered '^rt: ' >&2
    return 0
  fi
  while IFS= read -r -t 1 line || { status=$? && ((status > 128)); }; do
    printf '\r\033[K%d s, the first use proves the library: %.40s' $((SECONDS - start)) "$line" >&2
  done
  printf '\r\033[K' >&2
}

prove() {
  need rt "it comes with Rattle, and proves and builds the library"
  "$top/tools/fresh" "${archive#"$top/"}" tools/build archive 2>&1 | tee "$folder/proof.log" | show_progress
  ((PIPESTATUS[0] == 0)) || { cat "$folder/proof.log" >&2 && fail "the library could not be proved"; }
}

# Words and files are looked at before the prover's minutes: ends with what is wrong, or with what --help asks for.
look_at_words() { # [WORD...]
  is_old "$folder/unproved" "$folder/parts.o" && compile "$folder/unproved" "$folder/parts.o" "$top/sites/unproved.cpp"
  "${emulator[@]}" "$folder/unproved" "$@" >/dev/null 2>&1
  (($? == 3)) || exec "${emulator[@]}" "$folder/unproved" "$@"
}

# One at a time: whoever waits finds it built.
build() { # [WORD...]
  mkdir -p "$folder"
  exec 9>"$folder/lock"
  flock 9
  if is_old "$folder/parts.o" "$top/sites" "$top/include"; then
    echo "building target/sites/zarpalume" >&2
    compile "$folder/parts.o" -r -nostdlib "$top"/sites/*/*.cpp "$top/sites/zarpalume.cpp"
  fi
  if is_old "$archive" "$top/crates" "$top/crates.txt"; then
    look_at_words "$@"
    prove
  fi
  compile "$program" "$folder/parts.o" "$top/sites/input.cpp" "$archive"
  exec 9>&-
}

build_if_old() { # [WORD...]
  ((${#emulator[@]} == 0)) || need "${emulator[0]}" "Debian has it in the package qemu-user"
  ! is_old "$program" "$top/sites" "$top/include" "$top/crates" "$top/crates.txt" || build "$@"
}

run_command() { # COMMAND [WORD...]
  build_if_old "$@"
  exec "${emulator[@]}" "$program" "$@"
}
