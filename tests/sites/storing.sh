# shellcheck shell=bash disable=SC2154
# Storing verdicts: stopped, on top of what was left, and twice at once.

# The lines of gateway.verdict that have come, as column 9 has them.
gateway_lines=$(sed 's/\t/ /g; s/^/+/' examples/gateway.verdict | paste -sd , | sed 's/,/, /g')

# Each verdict there is whole, old or new: compares with the folder of those that were stored in peace.
verdicts_are_whole() { # FOLDER
  local verdict
  for verdict in "$1"/*.verdict; do
    cmp -s "$verdict" "$work/peace/${verdict##*/}" || [[ $(<"$verdict") == 'an old verdict' ]] || { echo "sites: $verdict is neither"; return 1; }
  done
}

# How many verdicts are not the old ones any more.
new_verdicts() { # FOLDER
  grep -rL '^an old verdict$' "$1" --include='*.verdict' | wc -l
}

stopped_and_run_again_nothing_is_lost() {
  local in sheet signal stops=0
  cp -r "$work/many" "$work/peace" && ./rejudge --quiet --store "$work/peace" >/dev/null
  for signal in KILL INT TERM HUP; do
    in=$work/stopped-$signal
    cp -r "$work/many" "$in"
    for sheet in "$in"/*.sheet; do
      echo 'an old verdict' >"${sheet%.sheet}.verdict"
    done
    # A shell has its background jobs ignore INT.
    env --default-signal=INT ./rejudge --quiet --store --threads 2 "$in" >/dev/null &
    until (($(new_verdicts "$in") > 20)); do
      sleep 0.01
    done
    { kill -s "$signal" $! && wait $!; } 2>/dev/null
    stops=$((stops + ($(new_verdicts "$in") < 240)))
    verdicts_are_whole "$in" || return 1
    ./rejudge --quiet --store "$in" >/dev/null
    diff -r "$in" "$work/peace" || return 1
  done
  # A test that never stops it in the middle shows nothing.
  echo "sites: stopped in the middle $stops times"
  ((stops > 0))
}

# A limit on the size of files ends it after the first 1,024 bytes of a verdict.
stopped_within_a_verdict_the_old_one_is_there() {
  local in
  in=$(room within)
  cp "$work/many/0.sheet" "$in"
  echo 'an old verdict' >"$in/0.verdict"
  # The shell tells of the signal, too.
  { (ulimit -c 0 -f 1 && exec ./rejudge --quiet --store "$in" >/dev/null); } 2>/dev/null
  (($? > 2)) && [[ $(<"$in/0.verdict") == 'an old verdict' && $(wc -c <"$in/0.verdict.new") == 1024 ]] &&
    { ./rejudge --quiet --store "$in" >/dev/null || true; } && cmp "$in/0.verdict" "$work/peace/0.verdict" && [[ ! -e $in/0.verdict.new ]]
}

# A file that a stopped run has left is taken over, and a verdict that can't be read left alone.
storing_takes_over_what_was_left() {
  local in
  in=$(room left)
  cp examples/gateway.sheet "$in"
  head -c 9000 /dev/zero >"$in/gateway.verdict.new"
  mkdir "$in/kept.verdict"
  cp examples/gateway.sheet "$in/kept.sheet"
  rejudges 2 "$(row "$in/gateway.sheet" "${good[@]}" new - && row "$in/kept.sheet" "${good[@]}" unread 'a folder, not a file')" --store "$in" &&
    cmp "$in/gateway.verdict" examples/gateway.verdict && [[ ! -e $in/gateway.verdict.new && -d $in/kept.verdict ]]
}

# Somebody else has the file open and locked, as another run would.
storing_waits_for_others() {
  local in other
  in=$(room waits)
  cp examples/gateway.sheet "$in"
  exec {other}>"$in/gateway.verdict.new"
  flock "$other"
  timeout 60 ./rejudge --quiet --store "$in" {other}>&- >/dev/null &
  sleep 0.5
  [[ ! -e $in/gateway.verdict ]] || return 1
  exec {other}>&-
  wait $! && cmp "$in/gateway.verdict" examples/gateway.verdict
}

# Several runs at a time on the same folder.
storing_twice_at_once_is_whole() {
  local run runs=()
  cp -r "$work/many" "$work/twice"
  for run in 1 2 3 4; do
    ./rejudge --quiet --store --threads 2 "$work/twice" >"$work/twice-$run" &
    runs+=($!)
  done
  wait "${runs[@]}"
  ! cut -f 8 "$work"/twice-[1-4] | grep -qv -e same -e new && diff -r "$work/twice" "$work/peace"
}

# Whichever verdict has a sheet's name, by itself or as its .new, as a hard link, and whether the sheet comes earlier or later.
storing_never_writes_to_a_sheet() {
  local in left='a sheet is left alone'
  in=$(room sheets)
  # Not read as sheets by their start: only being judged makes them sheets.
  printf 'no sheet' | tee "$in/a.verdict" "$in/b.verdict.new" "$in/z" >/dev/null
  ln "$in/z" "$in/c.verdict"
  cp examples/gateway.sheet "$in/a.sheet"
  cp examples/gateway.sheet "$in/b.sheet"
  cp examples/gateway.sheet "$in/c.sheet"
  cp -r "$in" "$work/sheets-before"
  rejudges 2 "$(
    row "$in/a.sheet" "${good[@]}" unwritten "$left, -no sheet, $gateway_lines"
    row "$in/a.verdict" refused '1 0' - - - - new -
    row "$in/b.sheet" "${good[@]}" unwritten "its .new: $left"
    row "$in/b.verdict.new" refused '1 0' - - - - new -
    row "$in/c.sheet" "${good[@]}" unwritten "$left, -no sheet, $gateway_lines"
    row "$in/z" refused '1 0' - - - - new -
  )" --store --threads 4 "$in"/*.sheet "$in/a.verdict" "$in/b.verdict.new" "$in/z" && rm "$in"/*.verdict.verdict "$in/b.verdict.new.verdict" "$in/z.verdict" && diff -r "$in" "$work/sheets-before" || return 1
  # A sheet of which this run doesn't know.
  cp examples/gateway.sheet "$in/a.verdict"
  ./rejudge --quiet --store "$in/a.sheet" | cut -f 8- | grep -q "^unwritten"$'\t'"$left, " && cmp "$in/a.verdict" examples/gateway.sheet
}

# The table must not go into a verdict that has its descriptor; with many threads there is always one that is being written.
storing_with_closed_descriptors_is_whole() {
  local program
  for program in ./rejudge "${emulator[*]} target/sites/zarpalume rejudge"; do
    rm -rf "$work/closed"
    cp -r "$work/many" "$work/closed"
    # shellcheck disable=SC2086
    $program --threads 8 --store "$work/closed" >&- 2>"$work/said"
    [[ $? == 2 && $(<"$work/said") == 'rejudge: the table could not be written' ]] && diff -r "$work/closed" "$work/peace" || return 1
  done
}

# A limit on the size of files stands for a full disk, where the signal is ignored.
storing_on_a_full_disk_is_whole() {
  local in
  in=$(room full)
  cp "$work/many/0.sheet" "$in"
  cp "$work/many/1.sheet" "$in"
  echo 'an old verdict' >"$in/0.verdict"
  (trap '' XFSZ && ulimit -f 1 && exec ./rejudge --quiet --store "$in") | cut -f 8,9 >"$work/table"
  [[ ${PIPESTATUS[0]} == 2 && $(sed 's/, [+].*//' "$work/table") == $'unwritten\tFile too large, -an old verdict\nunwritten\tFile too large' ]] &&
    [[ $(<"$in/0.verdict") == 'an old verdict' && $(ls "$in") == $'0.sheet\n0.verdict\n1.sheet' ]]
}

# Whichever call fails, the old verdict stays, and nothing is left beside it.
storing_tells_each_fault() {
  local in call
  in=$(room faults)
  cp examples/gateway.sheet "$in"
  echo 'an old verdict' >"$in/gateway.verdict"
  for call in write fsync flock fchmod rename; do
    SITES_CALL=$call with_faults rejudge --quiet --store "$in" >"$work/table"
    [[ $? == 2 && $(<"$in/gateway.verdict") == 'an old verdict' && $(ls "$in") == $'gateway.sheet\ngateway.verdict' ]] &&
      diff "$work/table" <(row "$in/gateway.sheet" "${good[@]}" unwritten "Input/output error, -an old verdict, $gateway_lines") || { echo "sites: $call" && return 1; }
  done
}

# The new verdict is there by then, and may be gone when the power goes.
storing_tells_that_the_folder_is_not_on_the_disk() {
  local in
  in=$(room folder-fault)
  cp examples/gateway.sheet "$in"
  SITES_CALL='fsync of a folder' with_faults rejudge --quiet --store "$in" >"$work/table"
  [[ $? == 2 && $(ls "$in") == $'gateway.sheet\ngateway.verdict' ]] && cmp "$in/gateway.verdict" examples/gateway.verdict &&
    diff "$work/table" <(row "$in/gateway.sheet" "${good[@]}" unwritten 'its folder: Input/output error')
}

# Only root can give files to others.
storing_keeps_mode_and_owner() {
  local in mode
  in=$(room access)
  for mode in 600 444 664; do
    cp examples/gateway.sheet "$in/$mode.sheet"
    echo 'an old verdict' >"$in/$mode.verdict"
    chmod "$mode" "$in/$mode.verdict"
    ((EUID != 0)) || chown 65534:65533 "$in/$mode.verdict"
  done
  cp examples/gateway.sheet "$in/first.sheet"
  stat -c '%n %a %u %g' "$in"/[0-9]*.verdict >"$work/access-before"
  (umask 027 && ./rejudge --quiet --store "$in" >/dev/null)
  stat -c '%n %a %u %g' "$in"/[0-9]*.verdict | diff "$work/access-before" - && [[ $(stat -c %a "$in/first.verdict") == 640 ]] &&
    cmp "$in/600.verdict" examples/gateway.verdict
}

# What is behind a link is somebody else's: right, wrong, and missing.
storing_leaves_links_alone() {
  local in
  in=$(room linked)
  mkdir "$in/there"
  cp examples/gateway.verdict "$in/there/right"
  echo 'an old verdict' >"$in/there/wrong"
  for name in right wrong missing; do
    cp examples/gateway.sheet "$in/$name.sheet"
    ln -s "there/$name" "$in/$name.verdict"
  done
  cp -r "$in" "$work/linked-before"
  rejudges 2 "$(
    row "$in/missing.sheet" "${good[@]}" unread 'No such file or directory'
    row "$in/right.sheet" "${good[@]}" same -
    row "$in/wrong.sheet" "${good[@]}" unwritten "a link is left alone, -an old verdict, $gateway_lines"
  )" --store "$in"/*.sheet && diff -r --no-dereference "$in" "$work/linked-before"
}

# A .new that was left may be a file with another name as well, or a link.
storing_writes_to_no_other_name() {
  local in
  in=$(room names)
  echo precious | tee "$in/hard" >"$in/soft"
  cp examples/gateway.sheet "$in/a.sheet"
  cp examples/gateway.sheet "$in/b.sheet"
  ln "$in/hard" "$in/a.verdict.new"
  ln -s soft "$in/b.verdict.new"
  rejudges 2 "$(row "$in/a.sheet" "${good[@]}" new - && row "$in/b.sheet" "${good[@]}" unwritten 'its .new: a link is left alone')" --store "$in" &&
    [[ $(<"$in/hard") == precious && $(<"$in/soft") == precious && $(ls "$in") == $'a.sheet\na.verdict\nb.sheet\nb.verdict.new\nhard\nsoft' ]] &&
    cmp "$in/a.verdict" examples/gateway.verdict
}

# Beside a verdict that is right; but not what somebody is writing, nor without being told to store.
storing_removes_what_was_left() {
  local in other
  in=$(room right)
  cp examples/gateway.sheet examples/gateway.verdict "$in"
  echo half >"$in/gateway.verdict.new"
  rejudges 0 "$(row "$in/gateway.sheet" "${good[@]}" same -)" "$in" && [[ -e $in/gateway.verdict.new ]] || return 1
  exec {other}>"$in/gateway.verdict.new"
  flock "$other"
  rejudges 0 "$(row "$in/gateway.sheet" "${good[@]}" same -)" --store "$in" {other}>&- && [[ -e $in/gateway.verdict.new ]] || return 1
  exec {other}>&-
  rejudges 0 "$(row "$in/gateway.sheet" "${good[@]}" same -)" --store "$in" && [[ $(ls "$in") == $'gateway.sheet\ngateway.verdict' ]]
}

# The first of two names writes, and the second one finds what it wrote; so it is with links to the folder and to a verdict that isn't there yet.
one_file_under_two_names_has_one_table() {
  local in k names=()
  in=$(room twofold)
  mkdir "$in/a"
  ln -s a "$in/b"
  for k in {1..40}; do
    cp examples/gateway.sheet "$in/a/$k.sheet"
    names+=("$in/a/$k.sheet" "$in/a/./$k.sheet" "$in/b/$k.sheet")
  done
  cp examples/gateway.sheet "$in/first.sheet"
  cp examples/gateway.sheet "$in/linked.sheet"
  ln -s first.verdict "$in/linked.verdict"
  rejudges 0 "$(
    for k in {1..40}; do row "$in/a/./$k.sheet" "${good[@]}" new -; done | LC_ALL=C sort
    for k in {1..40}; do row "$in/a/$k.sheet" "${good[@]}" same -; done | LC_ALL=C sort
    for k in {1..40}; do row "$in/b/$k.sheet" "${good[@]}" same -; done | LC_ALL=C sort
    row "$in/first.sheet" "${good[@]}" new -
    row "$in/linked.sheet" "${good[@]}" same -
  )" --store --threads 8 "${names[@]}" "$in/first.sheet" "$in/linked.sheet"
}
