# shellcheck shell=bash disable=SC2154
# The table and the status: on the examples, on a list, in threads, and beside a bar.

the_examples_have_the_stored_table() {
  ./rejudge --quiet examples >"$work/table"
  [[ $? == 1 ]] && diff tests/sites/examples.table "$work/table"
}

the_site_has_one_wrong_verdict() {
  local changed
  ./rejudge examples/site >"$work/table" 2>"$work/said"
  [[ $? == 1 ]] || return 1
  changed=$(awk -F'\t' '$8 == "changed" { print $1 ": " $9 }' "$work/table")
  [[ $changed == 'examples/site/hall-1/gateway.sheet: -views accepted, +views broken respect 5 1 1 -' ]] &&
    grep -q '^stored verdicts: 3 same, 1 changed, ' "$work/said"
}

# Mended in a copy, it has the second program's verdicts, and nothing of it is changed any more.
the_site_can_be_mended() {
  local sheet
  cp -r examples/site "$work/site" && ./rejudge --quiet --store "$work/site" >/dev/null
  for sheet in "$work"/site/*/*.sheet; do
    "$folder/second" verdict <"$sheet" | cmp - "${sheet%.sheet}.verdict" || return 1
  done
  ./rejudge --quiet "$work/site" | awk -F'\t' '$8 != "same" { exit 1 }' && rejudges 0 "$(./rejudge --quiet "$work/site/hall-2")" "$work/site/hall-2"
}

status_0_where_all_is_well() {
  local in
  in=$(room well)
  cp examples/gateway.sheet examples/gateway.verdict "$in"
  cp examples/gateway.sheet "$in/not-stored.sheet"
  rejudges 0 "$(row "$in/gateway.sheet" "${good[@]}" same - && row "$in/not-stored.sheet" "${good[@]}" none -)" "$in" && rejudges 0 '' "$(room nothing-in-it)"
}

# Each reason alone: refused, broken, changed in its lines, changed in their order.
status_1_where_somebody_has_to_look() {
  local in
  in=$(room look)
  cp examples/gateway.sheet "$in/lines.sheet"
  cp examples/gateway.sheet "$in/order.sheet"
  sed 's/^reach.*/reach\t5\r\n\x1b/; /^need\t1/d' examples/gateway.verdict >"$in/lines.verdict"
  tac examples/gateway.verdict >"$in/order.verdict"
  rejudges 1 "$(row examples/refused.sheet refused '8 34' - - - - same -)" examples/refused.sheet &&
    rejudges 1 "$(row examples/broken-output.sheet broken 'output 4 3 0 3' 5 1 0 5 same -)" examples/broken-output.sheet &&
    rejudges 1 "$(row "$in/lines.sheet" "${good[@]}" changed '-reach 5\x0d, -\x1b, +need 1 2, +need 1 3, +need 1 4, +reach 5')" "$in/lines.sheet" &&
    rejudges 1 "$(row "$in/order.sheet" "${good[@]}" changed 'the same lines in other bytes')" "$in/order.sheet"
}

# Nothing but its mark would be left of an empty line.
an_empty_line_more_is_a_change() {
  local in
  in=$(room empty-line)
  cp examples/gateway.sheet "$in"
  { cat examples/gateway.verdict && echo; } >"$in/gateway.verdict"
  rejudges 1 "$(row "$in/gateway.sheet" "${good[@]}" changed '-an empty line')" "$in"
}

# What a stored verdict has in it may be meant for the terminal.
controls_in_a_stored_verdict_are_escaped() {
  local in
  in=$(room controls)
  cp examples/gateway.sheet "$in"
  { cat examples/gateway.verdict && printf 'a\xc2\x9b2Jb\xffc\xc3\xa4\n'; } >"$in/gateway.verdict"
  rejudges 1 "$(row "$in/gateway.sheet" "${good[@]}" changed '-a\xc2\x9b2Jb\xffcä')" "$in"
}

# Has each allocation fail in turn, and all after it, until there are no more of them.
memory_that_is_short_is_told() { # PROGRAM [WORD...]
  local failing status=2
  for ((failing = 1; status == 2; failing++)); do
    SITES_ALLOCATION=$failing with_faults "$@" >/dev/null 2>"$work/said"
    status=$?
    [[ $status == 0 || $(<"$work/said") == "$1: out of memory" ]] || { echo "sites: $1, allocation $failing: status $status" && cat "$work/said" && return 1; }
  done
  echo "sites: $1 has told that each of $((failing - 2)) allocations failed"
  [[ $status == 0 ]] && ((failing > 2))
}

rejudge_tells_that_memory_is_short() {
  local in
  in=$(room memory)
  mkdir "$in/below"
  cp examples/gateway.sheet "$in"
  cp examples/gateway.sheet "$in/linked.sheet"
  ln -s gateway.verdict "$in/linked.verdict"
  memory_that_is_short_is_told rejudge --quiet --store --threads 1 "$in" && cmp "$in/gateway.verdict" examples/gateway.verdict
}

draw_tells_that_memory_is_short() {
  memory_that_is_short_is_told draw examples/gateway.sheet
}

status_2_where_the_words_are_wrong() {
  rejudges 2 '' --threads 0 examples && rejudges 2 '' --threads && rejudges 2 '' --threads 1x examples && rejudges 2 '' --stor examples &&
    grep -q '^usage: ' "$work/said"
}

status_2_where_the_table_can_not_be_written() {
  ./rejudge examples/gateway.sheet >/dev/full 2>"$work/said"
  [[ $? == 2 && $(<"$work/said") == 'rejudge: the table could not be written' ]] || return 1
  ./rejudge examples/gateway.sheet >&- 2>"$work/said"
  [[ $? == 2 && $(<"$work/said") == 'rejudge: the table could not be written' ]]
}

one_thread_or_many_write_the_same() {
  local threads
  ./rejudge --quiet --threads 1 "$work/many" >"$work/one"
  for threads in 2 3 32; do
    ./rejudge --quiet --threads "$threads" "$work/many" | cmp - "$work/one" || return 1
  done
  [[ $(wc -l <"$work/one") == 240 ]] && ./rejudge --quiet "$work/many" | cmp - "$work/one"
}

# With the table on the terminal as well, and with it elsewhere.
a_bar_only_on_a_terminal() {
  local words="--threads 1 $work/many $work/hosts $work/peace"
  local bar='\[#*\.*\] [0-9]* of 721, [0-9]* a second, [0-9]* s left'
  script -qec "./rejudge $words" /dev/null >"$work/terminal" </dev/null
  grep -q "$bar" "$work/terminal" && grep -q '^stored verdicts: ' "$work/terminal" || return 1
  script -qec "./rejudge $words >/dev/null" /dev/null >"$work/terminal" </dev/null
  grep -q "$bar" "$work/terminal" || return 1
  ./rejudge --threads 1 "$work/many" >/dev/null 2>"$work/said"
  [[ $(wc -l <"$work/said") == 3 ]] && ! grep -q 'left' "$work/said"
}

# The columns' names stand before the lines, in a pipe parted by tabs as these are.
a_header_names_the_columns() {
  ./rejudge --quiet --header examples >"$work/table"
  [[ $? == 1 && $(head -n 1 "$work/table") == $'path\toutcome\tplace\tneeded\tundrawn\tlost\treach\tstored\tchange\tlost arrows' ]] && tail -n +2 "$work/table" | cmp - tests/sites/examples.table
}

# Of the stored table those lines for which this holds, and the status of all.
only_these_lines_are_printed() { # KIND AWK-CONDITION
  local status
  ./rejudge --only "$1" examples >"$work/table" 2>"$work/said"
  status=$?
  awk -F'\t' "$2" tests/sites/examples.table | cmp - "$work/table" && [[ $status == 1 && -s $work/table ]] && grep -q '^judged: 6 accepted, ' "$work/said"
}

lines_can_be_chosen() {
  only_these_lines_are_printed changed '$8 == "changed"' && only_these_lines_are_printed broken '$2 == "broken"' &&
    only_these_lines_are_printed refused '$2 == "refused"' && only_these_lines_are_printed lost '$6 > 0' &&
    rejudges 2 '' --only loste examples && grep -q '^rejudge: --only wants changed, broken, refused or lost, and not loste$' "$work/said"
}

# By blanks, so that each column begins in one place; the fields are those of the pipe.
a_terminal_has_the_table_aligned() {
  local in
  in=$(room aligned)
  cp examples/gateway-log.sheet "$in/ä.sheet"
  cp examples/gateway.sheet "$in/longer.sheet"
  script -qec "./rejudge --quiet --header '$in' 2>/dev/null" /dev/null </dev/null | tr -d '\r' | sed 's/^\x1b\[K//' >"$work/table"
  [[ $(sed "s:$in/ä:$in/a:" "$work/table" | awk '{ print index($0, $2), index($0, $3) }' | sort -u | wc -l) == 1 && $(wc -l <"$work/table") == 3 ]] &&
    sed 's/   */\t/g' "$work/table" | cmp - <(./rejudge --quiet --header "$in")
}

lost_arrows_are_named() {
  local in
  in=$(room named)
  sed '6s/Log/Red/' examples/gateway-log.sheet >"$in/same.sheet"
  sed '6s/Log/a, b -> c/' examples/gateway-log.sheet >"$in/odd.sheet"
  [[ $(./rejudge --quiet "$in" | cut -f 10) == $'Red -> "a, b -> c", Bypass -> "a, b -> c"\nRed (1) -> Red (5), Bypass -> Red (5)' ]]
}
