#!/bin/sh
# Compares the built program with a second one, bench/plain.rs in plain Rust, on large traces: of 128 tasks over 100,000 ticks with
# overruns, stops and drops, of 128 tasks that have the ticks in turn, of a million records of 8 tasks, of idle runs at the limit of
# 100,000,000 ticks, in both versions, and 20 spoilt ones by a fixed seed or as many as are asked for: status and whole text of `judge`,
# `report` and `migrate`. `run` writes the first of these traces, so that a wrong one is found: the second program finds it illegal.
# usage: second.sh [CASES [SEED]]
. "$(dirname -- "$0")/../tools/usage.sh"
takes_numbers "$@"
cd "$(dirname -- "$0")/../examples" || exit 1
if ! command -v rustc >/dev/null 2>&1; then
    echo 'second: skipped, there is no rustc'
    exit 0
fi
if ! python3 -c 'import sys; sys.exit(sys.version_info < (3, 9))' 2>/dev/null; then
    echo "second: skipped, there is no python3 of version 3.9 or later"
    exit 0
fi
. ../checks/expect.sh
rustc -O --edition 2021 -o "$work/plain" ../bench/plain.rs || exit 1
python3 -B ../checks/second.py "$program" "$work/plain" "$@"
