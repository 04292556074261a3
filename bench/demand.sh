#!/bin/sh
# Measures `demand` beside a plain program in Rust, demand.rs, on demand files at the limits: instructions by callgrind,
# which repeat exactly, and the least processor time of a run out of five times twenty. Both write the same text. The word is
# a built program to measure in place of this one.
if [ $# -gt 0 ]; then
    program=$(readlink -f -- "$1") || exit 1
    cd "$(dirname -- "$0")" || exit 1
else
    cd "$(dirname -- "$0")" || exit 1
    program=$PWD/../crates/edfvd_program/out/edfvd_program
fi
if ! command -v rustc >/dev/null 2>&1; then
    echo 'demand: skipped, there is no rustc'
    exit 0
fi
work=$(mktemp -d) || exit 1
trap 'rm -rf "$work"' EXIT
trap 'exit 1' HUP INT TERM
[ $# -gt 0 ] || ../edfvd check ../examples/control/tasks.toml >"$work/out" || exit 1
rustc --edition 2021 -O -o "$work/plain" demand.rs || exit 1

. ./sets.sh
demand_sets

# instructions COMMAND..: how many the whole process takes
instructions() {
    if command -v valgrind >/dev/null 2>&1; then
        valgrind --tool=callgrind --callgrind-out-file=/dev/null "$@" 2>&1 >/dev/null | sed -n 's/.*Collected : //p'
    fi
}

# seconds COMMAND..: the least processor time of twenty runs, out of five
seconds() {
    if [ -x /usr/bin/time ]; then
        for _ in 1 2 3 4 5; do
            # shellcheck disable=SC2016
            /usr/bin/time -f '%U %S' sh -c 'n=0; while [ $n -lt 20 ]; do "$@" >/dev/null; n=$((n + 1)); done' sh "$@" 2>&1
        done | awk '{ time = $1 + $2; if (NR == 1 || time < least) least = time } END { printf "%.1f ms", least / 20 * 1000 }'
    fi
}

# beside NAME: both programs on the demand file
beside() {
    "$program" demand "$work/$1.csv" >"$work/proved.txt"
    "$work/plain" "$work/$1.csv" >"$work/plain.txt"
    if ! cmp "$work/proved.txt" "$work/plain.txt"; then
        echo "demand: $1: the texts differ"
        exit 1
    fi
    echo "$1: $(head -n 1 "$work/proved.txt"), $(wc -c <"$work/proved.txt") bytes"
    proved=$(instructions "$program" demand "$work/$1.csv")
    plain=$(instructions "$work/plain" "$work/$1.csv")
    if [ -n "$proved" ] && [ -n "$plain" ]; then
        echo "$1: $proved instructions, plain $plain, $(awk -v a="$proved" -v b="$plain" 'BEGIN { printf "%.2f", a / b }') times as many"
    fi
    echo "$1: $(seconds "$program" demand "$work/$1.csv") a run, plain $(seconds "$work/plain" "$work/$1.csv")"
}

beside wide
beside dense
beside past
beside dense_past
