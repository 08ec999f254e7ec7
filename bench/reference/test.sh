#!/bin/bash
# test.sh PROGRAM: runs the feeds of ../tests/feeds and says which differ.
here=$(cd "$(dirname "$0")" && pwd)
program=$(realpath "${1:-$here/build/reference}")
feeds=$here/../tests/feeds
work=$(mktemp -d)
trap 'rm -rf "$work"' EXIT
good=0 bad=0
try() { # name, feed, expected
  if "$program" < "$2" > "$work/got" && cmp -s "$work/got" "$3" && "$program" "$2" | cmp -s - "$3"; then
    good=$((good + 1))
  else
    bad=$((bad + 1)); echo "differs: $1"; diff "$3" "$work/got" | head -5
  fi
}
for feed in "$feeds"/*.in; do try "$(basename "$feed" .in)" "$feed" "${feed%.in}.out"; done
for name in $(python3 "$feeds/big.py" | cut -d: -f1); do
  case $program in *checked) [ "$name" = spent ] && continue ;; esac
  python3 "$feeds/big.py" "$name" in > "$work/in"
  python3 "$feeds/big.py" "$name" out > "$work/out"
  try "$name" "$work/in" "$work/out"
done
echo "$(basename "$program"): $good feeds as expected, $bad not"
[ "$bad" = 0 ]
