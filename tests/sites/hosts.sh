# shellcheck shell=bash disable=SC2154
# The table over several hosts, by the command of docs/SITES.md.

# The command of docs/SITES.md, with these hosts and this folder.
over_hosts() { # HOSTS
  local command
  command=$(awk '/^```sh$/ { shown = 1; next } /^```$/ { if (shown) exit } shown' docs/SITES.md)
  command=${command/hosts=north,south/hosts=$1}
  bash -c "${command/folder=\/srv\/sheets/folder=$work/hosts}" 2>"$work/said" || cat "$work/said" >&2
}

two_local_workers_make_the_same_table() {
  cp -r "$work/many" "$work/hosts" && cp examples/gateway.sheet "$work/hosts/"$'a\tb\n\'"$HOME\\ .sheet'
  ./rejudge --quiet "$work/hosts" >"$work/plain"
  over_hosts : | cmp - "$work/plain"
}

two_hosts_make_the_same_table() {
  SITES_HOSTS=$work/said-hosts PARALLEL_SSH=$PWD/tests/sites/ssh over_hosts 1/north,1/south | cmp - "$work/plain" &&
    [[ $(sort -u "$work/said-hosts") == $'north\nsouth' ]]
}
