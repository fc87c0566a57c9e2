# shellcheck shell=bash disable=SC2154
# Files, folders and names that are not as they should be.

# What can't be read stops nothing else.
bad_files_have_a_line_each() {
  local in
  in=$(room bad)
  : >"$in/empty.sheet"
  truncate -s 1T "$in/huge.sheet"
  head -c 32769 /dev/zero | tr '\0' '\n' >"$in/large.sheet"
  ln -s nowhere "$in/gone.sheet"
  ln -s round.sheet "$in/round.sheet"
  ln -s /proc/self/mem "$in/failing.sheet"
  mkfifo "$in/pipe.sheet"
  mkdir "$in/folder.sheet" "$in/shut.verdict"
  cp examples/gateway.sheet "$in/folder.sheet/inner.sheet"
  cp examples/gateway.sheet "$in/shut.sheet"
  cp examples/gateway.sheet "$in/no-ending"
  rejudges 2 "$(
    row "$in/empty.sheet" refused '1 0' - - - - none -
    unread "$in/failing.sheet" 'Input/output error'
    row "$in/folder.sheet/inner.sheet" "${good[@]}" none -
    unread "$in/gone.sheet" 'No such file or directory'
    row "$in/huge.sheet" refused '1 0' - - - - none -
    row "$in/large.sheet" refused '1 0' - - - - none -
    unread "$in/missing" 'No such file or directory'
    row "$in/no-ending" "${good[@]}" none -
    unread "$in/pipe.sheet" 'not a regular file'
    unread "$in/round.sheet" 'Too many levels of symbolic links'
    row "$in/shut.sheet" "${good[@]}" unread 'a folder, not a file'
  )" "$in" "$in/missing" "$in/no-ending" "$in/empty.sheet"
}

links_to_folders_end() {
  local in there known
  in=$(room links)
  there=$(room elsewhere)
  mkdir "$in/below"
  cp examples/gateway.sheet "$in/below"
  ln -s .. "$in/below/up"
  known=$(row "$in/below/gateway.sheet" "${good[@]}" none - && row "$in/below/up" skipped 'a link to a folder that is looked into anyway' - - - - - -)
  rejudges 0 "$known" "$in" || return 1
  ln -s "$there" "$in/other"
  cp examples/gateway.sheet "$there"
  rejudges 2 "$known"$'\n'"$(unread "$in/other" 'a link to another folder is not followed: name it as well')" "$in" &&
    rejudges 0 "$(row "$in/other/gateway.sheet" "${good[@]}" none -)" "$in/other"
}

# Where a link leads can't always be looked at: it may be a folder of sheets, on a disk that isn't there.
links_that_lead_nowhere_are_told() {
  local in
  in=$(room astray)
  mkdir -p "$in/shut/inner"
  cp examples/gateway.sheet "$in/shut/inner"
  ln -s shut/inner "$in/behind"
  ln -s /no/such/disk "$in/gone"
  ln -s loop "$in/loop"
  chmod 000 "$in/shut"
  as_nobody --quiet "$in" >"$work/table"
  [[ $? == 2 ]] && chmod 755 "$in/shut" && diff "$work/table" <(
    unread "$in/behind" 'Permission denied'
    unread "$in/gone" 'No such file or directory'
    unread "$in/loop" 'Too many levels of symbolic links'
    unread "$in/shut" 'Permission denied'
  )
}

# A folder that can't be read to its end stops nothing else.
folders_that_fail_are_told() {
  SITES_CALL=readdir with_faults rejudge --quiet examples examples/gateway.sheet >"$work/table"
  [[ $? == 2 ]] && diff "$work/table" <(unread examples 'Input/output error' && row examples/gateway.sheet "${good[@]}" same -)
}

# Names with controls of one byte and of two, and with bytes that are no UTF-8; the scripts write them as the table does.
odd_names_stay_on_their_line() {
  local in name
  in=$(room odd)
  for name in $'tab\t' $'line\nend' 'back\slash' $'\033[31m' ' ' '-x' 'ä' $'\xc2\x9b31m' $'\xff' $'\xed\xa0\x80' '€𝄞'; do
    cp examples/gateway.sheet "$in/$name.sheet"
  done
  rejudges 0 "$(for name in '\x1b[31m' ' ' '-x' 'back\\slash' 'line\nend' 'tab\t' '\xc2\x9b31m' 'ä' '€𝄞' '\xed\xa0\x80' '\xff'; do row "$in/$name.sheet" "${good[@]}" none -; done)" "$in" &&
    (cd "$in" && find . -name '*.sheet' -printf '%P\0') | rejudge_in "$in" --quiet --null | cmp - <(sed "s:^$in/::" "$work/table") &&
    rejudge_in "$in" --quiet -- -x.sheet | cmp - <(row -x.sheet "${good[@]}" none -)
}

rejudge_in() { # FOLDER [WORD...]
  local here=$PWD
  (cd "$1" && "$here/rejudge" "${@:2}")
}

a_list_on_standard_input() {
  rejudges 1 "$(<tests/sites/examples.table)" < <(printf '%s\n' examples '' examples/gateway.sheet) &&
    rejudges 2 "$(unread gone.sheet 'No such file or directory')" <<<gone.sheet
}

# It is no empty list.
a_list_that_can_not_be_read_is_told() {
  rejudges 2 '' <&- && [[ $(<"$work/said") == 'rejudge: the list of names could not be read: Bad file descriptor' ]] &&
    rejudges 2 '' <tests && [[ $(<"$work/said") == 'rejudge: the list of names could not be read: Is a directory' ]]
}

# The system would take what stands before the zero byte for the name, and the sheet for its own verdict.
a_name_with_a_zero_byte_is_no_name() {
  local in
  in=$(room zero)
  cp examples/gateway.sheet "$in/a.sheet"
  cp examples/gateway.sheet "$in/b.sheet"
  rejudges 2 "$(unread "$in/a.sheet"'\x00'"$in/b.sheet"'\x00' 'a name with a zero byte: such a list wants --null')" --store < <(printf '%s\0' "$in"/[ab].sheet) &&
    cmp "$in/a.sheet" examples/gateway.sheet && [[ $(ls "$in") == $'a.sheet\nb.sheet' ]]
}

# Runs rejudge without the rights to read or write; root has them all, so nobody runs it.
as_nobody() { # [WORD...]
  local nobody=()
  if ((EUID == 0)); then
    nobody=(setpriv --reuid=65534 --regid=65534 --clear-groups)
  fi
  cp target/sites/zarpalume "$work/program" && "${nobody[@]}" "${emulator[@]}" "$work/program" rejudge "$@"
}

what_is_shut_is_told() {
  local in
  in=$(room shut)
  mkdir "$in/closed"
  cp examples/gateway.sheet "$in/can-not-store.sheet"
  cp examples/gateway.sheet "$in/shut.sheet"
  chmod 000 "$in/shut.sheet" "$in/closed"
  chmod 555 "$in"
  as_nobody --quiet --store "$in" >"$work/table"
  [[ $? == 2 ]] && chmod 755 "$in" "$in/closed" && diff "$work/table" <(
    row "$in/can-not-store.sheet" "${good[@]}" unwritten 'Permission denied'
    unread "$in/closed" 'Permission denied'
    unread "$in/shut.sheet" 'Permission denied'
  )
}
