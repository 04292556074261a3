#!/bin/sh
# Runs the commands that the pages show, with the built program, and compares what they write with what the page shows (shown.py).
# usage: shown.sh
. "$(dirname -- "$0")/../tools/usage.sh"
takes 0 0 "$@"
cd "$(dirname -- "$0")/../examples" || exit 1
if ! python3 -c 'import tomllib' 2>/dev/null; then
    echo "shown: skipped, there is no python3 of version 3.11 or later"
    exit 0
fi
. ../checks/expect.sh
python3 -B ../checks/shown.py "$program"
