#!/bin/sh
# Measures the built program on the worst inputs that were found for each command within its limits: the least time out of some runs,
# that of processors, the most memory, and how much longer it takes than a plain program in Rust, where bench has one and there is a
# rustc. The table of docs/COMMANDS.md has the worst of each command; checks/costs.sh compares its memory. It needs 1 GB below /tmp.
# usage: bounds.sh [RUNS]
. "$(dirname -- "$0")/../tools/usage.sh"
takes 0 1 "$@"
takes_numbers "$@"
cd "$(dirname -- "$0")" || exit 1
. ../checks/expect.sh
plain=none
if command -v rustc >/dev/null 2>&1; then
    plain=$work
    for name in plain demand accept; do
        rustc -O --edition 2021 -o "$work/$name" "$name.rs" || exit 1
    done
fi
python3 -B bounds.py "$program" "$plain" "$@"
