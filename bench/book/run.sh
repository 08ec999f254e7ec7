#!/usr/bin/env bash
# What one withdrawal plus one insertion costs in a book with 8 and with 256 rows, and the ratio of the two. Needs rustc.
set -eu
top=$(cd "$(dirname "$0")/../.." && pwd)
(cd "$top/crates/book_speed" && rt lib > /dev/null)
work=$(mktemp -d)
trap 'rm -rf "$work"' EXIT
rustc -C opt-level=3 "$top/bench/book/time.rs" -o "$work/book" -L "$top/crates/book_speed/out" -l static=book_speed
"$work/book"
