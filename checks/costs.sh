#!/bin/sh
# Compares the memory that docs/COMMANDS.md names for the worst inputs of each command with what the built program takes (costs.py).
# No time is compared. It needs 1 GB below /tmp.
# usage: costs.sh
. "$(dirname -- "$0")/../tools/usage.sh"
takes 0 0 "$@"
cd "$(dirname -- "$0")/../examples" || exit 1
if ! python3 -c 'import tomllib' 2>/dev/null; then
    echo "costs: skipped, there is no python3 of version 3.11 or later"
    exit 0
fi
. ../checks/expect.sh
python3 -B ../checks/costs.py "$program"
