#!/usr/bin/env bash
# Runs guardlog on every feed of feeds/, and on the long ones that big.py writes: what it prints has to be what stands beside the feed,
# byte for byte, whether the feed comes through standard input or as a named file. It builds guardlog first, where that has not been done.
set -eu
top=$(cd "$(dirname "$0")/.." && pwd)
guardlog=$top/crates/guardlog/out/guardlog
work=$(mktemp -d)
trap 'rm -rf "$work"' EXIT
(cd "$top/crates/guardlog" && rt run < /dev/null) > "$work/log" 2>&1 || {
    cat "$work/log"
    exit 1
}
passed=0
failed=0
compare() {
    for how in input file; do
        if [ $how = input ]; then
            "$guardlog" < "$2" > "$work/got"
        else
            "$guardlog" "$2" > "$work/got"
        fi
        if cmp -s "$work/got" "$3"; then
            passed=$((passed + 1))
        else
            failed=$((failed + 1))
            echo "feeds: $1 ($how): printed something else"
        fi
    done
}
for feed in "$top"/tests/feeds/*.in; do
    compare "$(basename "$feed" .in)" "$feed" "${feed%.in}.out"
done
for name in series full pulled held served spent moments; do
    "$top/tests/feeds/big.py" $name in > "$work/in"
    "$top/tests/feeds/big.py" $name out > "$work/out"
    compare $name "$work/in" "$work/out"
done
if "$guardlog" < "$top/tests/feeds/worked.in" > /dev/full 2> /dev/null; then
    failed=$((failed + 1))
    echo "feeds: it ended well where it could not write"
else
    passed=$((passed + 1))
fi
echo "feeds: $passed passed, $failed failed"
[ $failed = 0 ]
