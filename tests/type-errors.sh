#!/usr/bin/env bash
# Edits that the compiler itself has to refuse, before anything is proved: the mistakes that the types of a Trader Update rule
# out. A must-fail edit has to reach the prover, so these stand apart. It works on a copy without what checks have kept.
# Each edit in type-errors/ names its crate, its file, the text to replace (which stands there once), the new text, and the
# error that the compiler must give.
set -eu
top=$(cd "$(dirname "$0")/.." && pwd)
work=$(mktemp -d)
trap 'rm -rf "$work"' EXIT
tar -C "$top" --exclude=out -cf - crates.txt crates | tar -C "$work" -xf -
status=0
for edit in "$top"/tests/type-errors/*.edit; do
    field() { sed -n "s/^$1: //p" "$edit"; }
    crate=$(field crate)
    file=crates/$crate/$(field file)
    OLD=$(field old) NEW=$(field new) awk '{
        at = index($0, ENVIRON["OLD"])
        if (at) $0 = substr($0, 1, at - 1) ENVIRON["NEW"] substr($0, at + length(ENVIRON["OLD"]))
        print
    }' "$top/$file" > "$work/$file"
    if (cd "$work/crates/$crate" && rt check) > "$work/log" 2>&1; then
        echo "type error $(basename "$edit" .edit): NOT REFUSED"
        status=1
    elif grep -q "error\[$(field error)\]" "$work/log"; then
        echo "type error $(basename "$edit" .edit): refused, as it must be ($(field error))"
    else
        echo "type error $(basename "$edit" .edit): REFUSED FOR ANOTHER REASON"
        grep -m 3 error "$work/log" || true
        status=1
    fi
    cp "$top/$file" "$work/$file"
done
exit $status
