#!/bin/sh
# Compares the built program with checks/model.py, another one that was written from the rules alone: first that one
# with its worked examples, then both on cases made by a fixed seed, 4800 or as many as are asked for.
# usage: compare.sh [CASES [SEED]]
. "$(dirname -- "$0")/../tools/usage.sh"
takes_numbers "$@"
cd "$(dirname -- "$0")/../examples" || exit 1
if ! python3 -c 'import sys; sys.exit(sys.version_info < (3, 9))' 2>/dev/null; then
    echo "compare: skipped, there is no python3 of version 3.9 or later"
    exit 0
fi
if [ -z "${PROGRAM:-}" ]; then
    ../edfvd >/dev/null
    PROGRAM=$(../prebuilt/program.sh) || exit 1
fi
python3 -B ../checks/model.py || exit 1
exec python3 -B ../checks/compare.py "$PROGRAM" "$@"
