#!/bin/sh
# Spoils the example files by a fixed seed, 3000 cases or as many as are asked for, and asserts that each answer is one of
# the named ones, twice the same, in bounded time and memory.
# usage: mutate.sh [CASES [SEED]]
. "$(dirname -- "$0")/../tools/usage.sh"
takes_numbers "$@"
cd "$(dirname -- "$0")/../examples" || exit 1
if ! command -v python3 >/dev/null 2>&1; then
    echo "mutate: skipped, there is no python3"
    exit 0
fi
if [ -z "${PROGRAM:-}" ]; then
    ../edfvd >/dev/null
    PROGRAM=$(../prebuilt/program.sh) || exit 1
fi
exec python3 -B ../checks/mutate.py "$PROGRAM" "$@"
