#!/bin/sh
# Measures `accept` beside a plain program in Rust, accept.rs, which shares the sets among threads, too: the least processor time
# of a run, and the least and the median time of 200, on all processors and on one. Both write the same table. The word is a
# built program to measure in place of this one.
if [ $# -gt 0 ]; then
    program=$(readlink -f -- "$1") || exit 1
    cd "$(dirname -- "$0")" || exit 1
else
    cd "$(dirname -- "$0")" || exit 1
    program=$PWD/../crates/edfvd_program/out/edfvd_program
fi
if ! command -v rustc >/dev/null 2>&1; then
    echo 'accept: skipped, there is no rustc'
    exit 0
fi
work=$(mktemp -d) || exit 1
trap 'rm -rf "$work"' EXIT
trap 'exit 1' HUP INT TERM
[ $# -gt 0 ] || ../edfvd check ../examples/control/tasks.toml >"$work/out" || exit 1
rustc --edition 2021 -O -o "$work/plain" accept.rs || exit 1

for words in '1 50 8' '1 10000 32' '18446744073709551000 600 5' '7 1 2'; do
    # shellcheck disable=SC2086
    "$program" accept $words >"$work/proved.txt"
    # shellcheck disable=SC2086
    "$work/plain" $words >"$work/plain.txt"
    if ! cmp "$work/proved.txt" "$work/plain.txt"; then
        echo "accept: $words: the tables differ"
        exit 1
    fi
done

# least COMMAND..: the least processor time of twenty runs, out of ten
least() {
    for _ in 1 2 3 4 5 6 7 8 9 10; do
        # shellcheck disable=SC2016
        /usr/bin/time -f '%U %S' sh -c 'n=0; while [ $n -lt 20 ]; do "$@" >/dev/null; n=$((n + 1)); done' sh "$@" 2>&1
    done | awk '{ time = $1 + $2; if (NR == 1 || time < least) least = time } END { printf "%.1f ms", least / 20 * 1000 }'
}

if [ -x /usr/bin/time ]; then
    echo "processor time: $(least "$program" accept 1 10000 32), plain $(least "$work/plain" 1 10000 32)"
    if command -v taskset >/dev/null 2>&1; then
        echo "on one processor: $(least taskset -c 0 "$program" accept 1 10000 32), plain $(least taskset -c 0 "$work/plain" 1 10000 32)"
    fi
fi
if command -v python3 >/dev/null 2>&1; then
    python3 times.py 200 "$program accept 1 10000 32" "one $program accept 1 10000 32" "$program accept 1 1 2" \
        "one $program accept 1 1 2" "$work/plain 1 10000 32" "one $work/plain 1 10000 32"
fi
