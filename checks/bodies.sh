#!/bin/sh
# Has the prover try some of the wrong bodies that stand outside the gate (wrong_bodies.py): a few of one crate after another, for some
# minutes, in an order by the seed. If no seed is given, it is the day's date in UTC; it is printed first. The status is 1 if an edit does
# not apply, cannot be read or is accepted, or if rt ends in time and says nothing of it. It is never 1 because of time: the last line has
# the number of those that were not tried.
# usage: bodies.sh MINUTES [SEED]
. "$(dirname -- "$0")/../tools/usage.sh"
takes 1 2 "$@"
takes_numbers "$@"
cd "$(dirname -- "$0")/../examples" || exit 1
seed=${2:-$(date -u +%Y%m%d)}
echo "bodies: seed $seed, $1 minutes"
if ! command -v rt >/dev/null || ! python3 -c 'import tomllib' 2>/dev/null; then
    echo "bodies: skipped, there is no rt, or no python3 of version 3.11 or later"
    exit 0
fi
if ! rt 2>&1 | grep -qF 'rt must-fail'; then
    echo "bodies: skipped, the rt of this kit has no must-fail"
    exit 0
fi
exec python3 -B ../checks/wrong_bodies.py for "$1" "$seed"
