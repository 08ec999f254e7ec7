#!/bin/bash
# bench.sh GUARDLOG [ROUNDS] [LINES]
#
# Generates feeds of a million lines (or LINES) and runs GUARDLOG and the reference on each, in turns, ROUNDS times (3 if not given).
# Prints the least processor time of each, user and system, and the ratio.
set -u
here=$(cd "$(dirname "$0")" && pwd)
[ $# -ge 1 ] || { sed -n '2,5p' "$0" >&2; exit 2; }
guardlog=$(realpath "$1")
rounds=${2:-3}
lines=${3:-1000000}
make -s -C "$here" || exit 2
work=$(mktemp -d)
trap 'rm -rf "$work"' EXIT
TIMEFORMAT='%U %S'

# spent PROGRAM FEED: processor time in milliseconds
spent() {
  local times
  times=$( { time "$1" < "$2" > /dev/null; } 2>&1 )
  awk -v times="$times" 'BEGIN { split(times, t, " "); printf "%d", (t[1] + t[2]) * 1000 + 0.5 }'
}

printf '%-8s %10s %12s %12s %8s %14s\n' feed lines guardlog reference ratio 'agree'
for kind in quotes orders held; do
  feed=$work/$kind
  "$here/build/feeds" "$kind" 1 "$lines" > "$feed"
  theirs= ours=
  for ((round = 0; round < rounds; round++)); do
    one=$(spent "$guardlog" "$feed")
    two=$(spent "$here/build/reference" "$feed")
    [ -z "$theirs" ] || [ "$one" -lt "$theirs" ] && theirs=$one
    [ -z "$ours" ] || [ "$two" -lt "$ours" ] && ours=$two
  done
  if "$guardlog" < "$feed" | cmp -s - <("$here/build/reference" < "$feed"); then same=yes; else same=NO; fi
  printf '%-8s %10d %9d ms %9d ms %8s %14s\n' "$kind" "$lines" "$theirs" "$ours" \
    "$(awk -v a="$theirs" -v b="$ours" 'BEGIN { printf b ? "%.2f" : "-", b ? a / b : 0 }')" "$same"
  rm "$feed"
done
