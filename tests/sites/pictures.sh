# shellcheck shell=bash disable=SC2154
# What draw draws.

# What a picture shows, whichever Graphviz drew it: its boxes and arrows, each arrow's kind, and all texts.
shown() { # PICTURE.svg
  tr -d '\n' <"$1" | sed 's/&#45;/-/g; s/<g /\n<g /g; s/<text/\n<text/g' |
    sed -nE 's:.*class="(node|edge)( [a-z-]*)?"><title>([^<]*)</title>.*:\3\2:p; s:^<text[^>]*>([^<]*)</text>.*:\1:p' | sort
}

the_pictures_are_those_that_draw_makes() {
  local picture sheet
  for picture in examples/pictures/*.svg; do
    sheet=${picture##*/}
    sheet=examples/${sheet%.svg}.sheet
    ./draw "${sheet/site-hall-1-/site/hall-1/}" "$work/fresh.svg" && diff <(shown "$picture") <(shown "$work/fresh.svg") || return 1
  done
  [[ $(shown examples/pictures/site-hall-1-gateway.svg | grep -c '^b[0-9]*-&gt;b[0-9]* [dn]') == 8 ]]
}

each_kind_of_arrow_is_drawn() {
  ./draw examples/site/hall-1/gateway.sheet | grep -o '^  b.*class="[a-z-]*"' | diff - tests/sites/arrows
}

# As many arrows of each kind as the table says.
the_table_and_the_pictures_agree() {
  local path not_drawn no_path
  while IFS=$'\t' read -r path _ _ _ not_drawn no_path _; do
    [[ $no_path == - || $(./draw "$path" | grep -c 'class="needed-lost"') == "$no_path" ]] &&
      [[ $not_drawn == - || $(./draw "$path" | grep -c 'class="needed-') == "$not_drawn" ]] || return 1
  done <tests/sites/examples.table
}

# Whether a picture shows exactly this text somewhere.
shows() { # PICTURE.svg TEXT
  shown "$1" | sed "s/&#160;\\|\xc2\xa0/ /g; s/&#39;/'/g; s/&quot;/\"/g; s/&lt;/</g; s/&gt;/>/g; s/&amp;/\\&/g" | grep -Fxq -e "$2"
}

odd_labels_are_drawn() {
  local label
  for label in '"' '\' '\N' '\G\E\T\H\L' '\\N' 'a\nb\' ']' ']]' ']]>' '<b>' '&' '&amp;' '   ' '>' "'" '%s' '//' '#' '{}|'; do
    label=$label awk -F'\t' -v OFS='\t' '$1 == "box" && $2 == 1 { $3 = ENVIRON["label"] } { print }' examples/gateway.sheet >"$work/label.sheet"
    ./draw "$work/label.sheet" "$work/label.svg" 2>"$work/said" && [[ ! -s $work/said ]] && shows "$work/label.svg" "$label" &&
      shows "$work/label.svg" 'views accepted' || { echo "sites: the label $label" && return 1; }
  done
}

odd_names_are_titles() {
  local title
  for title in '\G' ']' '&#92;'; do
    cp examples/gateway.sheet "$work/$title" && ./draw "$work/$title" "$work/title.svg" && shows "$work/title.svg" "$title" || { echo "sites: the title $title" && return 1; }
  done
}

a_picture_can_be_png() {
  ./draw examples/gateway.sheet "$work/gateway.png" && [[ $(head -c 8 "$work/gateway.png" | od -An -tx1) == ' 89 50 4e 47 0d 0a 1a 0a' ]]
}

# Neither where it has the sheet's name, nor on the way to another.
a_picture_is_never_the_sheet() {
  local in
  in=$(room drawn)
  cp examples/gateway.sheet "$in/a.svg"
  cp examples/gateway.sheet "$in/b.svg.new"
  ./draw "$in/a.svg" "$in/./a.svg" 2>"$work/said"
  [[ $? == 2 && $(<"$work/said") == "draw: $in/./a.svg is the sheet, and left alone" ]] && ./draw "$in/b.svg.new" "$in/b.svg" &&
    cmp "$in/a.svg" examples/gateway.sheet && cmp "$in/b.svg.new" examples/gateway.sheet && [[ $(ls "$in") == $'a.svg\nb.svg\nb.svg.new' ]]
}

draw_tells_what_it_could_not_do() {
  local in
  in=$(room undrawn)
  mkdir "$in/folder.svg"
  ./draw examples/gateway.sheet "$in/folder.svg" 2>"$work/said"
  [[ $? == 2 && $(tail -n 1 "$work/said") == "draw: $in/folder.svg: Is a directory" && $(find "$in") == "$in"$'\n'"$in/folder.svg" ]] || return 1
  # A limit on the size of files stands for a disk that is full just before the end, where the signal is ignored.
  ./draw examples/gateway.sheet "$in/whole.svg" || return 1
  (trap '' XFSZ && ulimit -f $((($(wc -c <"$in/whole.svg") - 1) / 1024)) && exec ./draw examples/gateway.sheet "$in/full.svg" 2>/dev/null)
  [[ $? == 2 && $(ls "$in") == $'folder.svg\nwhole.svg' ]] || return 1
  ./draw examples/gateway.sheet "$in/nowhere/"$'\n\033.svg' 2>"$work/said"
  [[ $? == 2 && $(tail -n 1 "$work/said") == "draw: $in/nowhere/"'\n\x1b.svg: No such file or directory' ]] || return 1
  ./draw examples/gateway.sheet >/dev/full 2>"$work/said"
  [[ $? == 2 && $(<"$work/said") == 'draw: what dot is given could not be written' ]] || return 1
  ./draw examples/gateway.sheet >&- 2>"$work/said"
  [[ $? == 2 && $(<"$work/said") == 'draw: what dot is given could not be written' ]] || return 1
  ./draw examples/missing.sheet "$work/missing.svg" 2>"$work/said"
  [[ $? == 2 && ! -e $work/missing.svg && $(<"$work/said") == 'draw: examples/missing.sheet: No such file or directory' ]] || return 1
  ./draw examples/gateway.sheet "$work/nowhere/gateway.svg" 2>/dev/null
  [[ $? == 2 ]] || return 1
  ./draw examples/gateway.sheet "$work/gateway.strange" 2>/dev/null
  [[ $? == 2 && -z $(compgen -G "$work/gateway.strange*") ]] || return 1
  ./draw 2>/dev/null
  [[ $? == 2 ]]
}

# Nothing but the lost arrows and their boxes, and it says so.
draw_can_show_lost_arrows_only() {
  ./draw --only lost examples/gateway-log.sheet "$work/lost.svg" && shows "$work/lost.svg" 'only needed arrows with no drawn path are shown' &&
    [[ $(shown "$work/lost.svg" | grep '^b[0-9]' | LC_ALL=C sort) == $'b1\nb1-&gt;b5 needed-lost\nb3\nb3-&gt;b5 needed-lost\nb5' ]] || return 1
  ./draw --only los examples/gateway.sheet 2>"$work/said"
  [[ $? == 2 && $(head -n 1 "$work/said") == 'draw: --only wants lost, and not los' ]]
}

# Where the pointer rests, also over odd labels.
tooltips_have_labels_and_kind() {
  sed '2s/Red/\\N "<\&>\\\\/' examples/gateway-log.sheet >"$work/tip.sheet" && ./draw "$work/tip.sheet" "$work/tip.svg" || return 1
  grep -o 'xlink:title="[^"]*"' "$work/tip.svg" | sed "s/&#160;\\|\xc2\xa0/ /g; s/&#45;/-/g; s/&quot;/\"/g; s/&lt;/</g; s/&gt;/>/g; s/&#92;/\\\\/g; s/&amp;/\\&/g" >"$work/tips"
  grep -Fxq 'xlink:title="Bypass -> Log: needed, and no drawn path"' "$work/tips" && grep -Fxq 'xlink:title="Log, id 5"' "$work/tips" &&
    grep -Fxq 'xlink:title="\N "<&>\\, id 1"' "$work/tips" &&
    grep -Fxq 'xlink:title=""\\N \"<&>\\\\" -> Log: needed, and no drawn path"' "$work/tips"
}
