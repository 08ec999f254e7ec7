#!/usr/bin/env bash
# One million mixed lines, read and written back by relines and by the same logic in plain Rust, side by side.
# Prints the processor time of each run and the ratio of the sums. Needs rustc.
set -eu
cd "$(dirname "$0")/../.."
(cd crates/relines && rt run < /dev/null > /dev/null)
relines=crates/relines/out/relines
work=$(mktemp -d)
trap 'rm -rf "$work"' EXIT
rustc -O -o "$work/plain" bench/lines/plain.rs
rustc -O -o "$work/feed" bench/lines/feed.rs
"$work/feed" > "$work/lines"
"$relines" < "$work/lines" > "$work/proved.out"
"$work/plain" < "$work/lines" > "$work/plain.out"
cmp "$work/proved.out" "$work/plain.out"
echo "$(wc -l < "$work/lines") lines, $(wc -c < "$work/lines") bytes, $(grep -c shape "$work/proved.out") of them broken"

# the processor time of ten runs, in milliseconds
spent() {
    local TIMEFORMAT='%U %S'
    { time for _ in 1 2 3 4 5 6 7 8 9 10; do "$1" < "$work/lines" > /dev/null; done; } 2>&1 | awk '{ printf "%d", ($1 + $2) * 1000 }'
}

proved=0
plain=0
for turn in 1 2 3 4 5; do
    a=$(spent "$relines")
    b=$(spent "$work/plain")
    echo "turn $turn: relines $((a / 10)) ms a run, plain Rust $((b / 10)) ms a run"
    proved=$((proved + a))
    plain=$((plain + b))
done
awk -v a="$proved" -v b="$plain" 'BEGIN { printf "ratio %.2f\n", a / b }'
