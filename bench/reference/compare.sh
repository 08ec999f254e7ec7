#!/bin/bash
# compare.sh GUARDLOG [COUNT] [LINES]
#
# For the seeds 1 to COUNT (20 if not given) and every kind, runs GUARDLOG and the reference on the same feed of LINES lines (2,000 if
# not given), and prints how many agree, and the first difference. Every feed goes through standard input; one in four also as a named
# file, and one in four in pieces of 7 bytes.
set -u
here=$(cd "$(dirname "$0")" && pwd)
[ $# -ge 1 ] || { sed -n '2,6p' "$0" >&2; exit 2; }
guardlog=$(realpath "$1")
count=${2:-20}
lines=${3:-2000}
make -s -C "$here" || exit 2
work=$(mktemp -d)
trap 'rm -rf "$work"' EXIT
agree=0 differ=0 shown=

# compared KIND SEED HOW, with GUARDLOG's output in got and its status in status
compared() {
  if [ "$status" = "$wanted" ] && cmp -s "$work/got" "$work/want"; then
    agree=$((agree + 1))
    return
  fi
  differ=$((differ + 1))
  [ -n "$shown" ] && return
  shown=$(
    echo "first difference: feeds $1 $2 $lines, $3; status $status, the reference's $wanted"
    # Each line has one answer, so the count of answers before the first difference is the count of lines that agree.
    at=$(cmp "$work/got" "$work/want" 2>/dev/null | sed 's/.*line //')
    at=${at:-$(($(wc -l < "$work/got") < $(wc -l < "$work/want") ? $(wc -l < "$work/got") + 1 : $(wc -l < "$work/want") + 1))}
    answered=$(head -n $((at - 1)) "$work/want" | grep -ac '^a')
    echo "after $answered lines; line $((answered + 1)) is:"
    sed -n "$((answered + 1))p" "$work/in" | cat -v | cut -c1-120
    echo "GUARDLOG printed from there:"
    sed -n "$at,$((at + 4))p" "$work/got"
    echo "the reference:"
    sed -n "$at,$((at + 4))p" "$work/want"
  )
  cp "$work/in" "$here/build/first_difference.in"
}

for kind in $("$here/build/feeds" | cut -d: -f1); do
  before=$agree
  tried=0
  for ((seed = 1; seed <= count; seed++)); do
    "$here/build/feeds" "$kind" "$seed" "$lines" > "$work/in"
    "$here/build/reference" < "$work/in" > "$work/want"; wanted=$?
    "$guardlog" < "$work/in" > "$work/got"; status=$?
    tried=$((tried + 1)); compared "$kind" "$seed" "standard input"
    if ((seed % 4 == 1)); then
      "$guardlog" "$work/in" > "$work/got"; status=$?
      tried=$((tried + 1)); compared "$kind" "$seed" "named file"
    fi
    if ((seed % 4 == 2)); then
      dd if="$work/in" bs=7 status=none | "$guardlog" > "$work/got"; status=$?
      tried=$((tried + 1)); compared "$kind" "$seed" "pieces of 7 bytes"
    fi
  done
  printf '%-8s %d of %d agree\n' "$kind" $((agree - before)) "$tried"
done
echo "in all: $agree agree, $differ differ"
if [ "$differ" != 0 ]; then
  echo "$shown"
  echo "the feed: $here/build/first_difference.in"
  exit 1
fi
