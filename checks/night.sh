#!/bin/sh
# Tries new cases on the built program for some minutes: cases beside the model, spoilt files, documents of a TOML grammar, and
# what explain.py says. The seed is that of the day where none is given, and is printed first; the same seed makes the same
# cases. A case that fails is made smaller and written to a file, with the call that repeats it; put into found/, it is tried by
# every run. FOLDER=NAME has these files elsewhere than in a new folder below /tmp, which is there afterwards only if it has some.
# A round has forty cases. A third of the documents may have forms of TOML 1.1 and a byte order mark. Half of them get one more statement
# that is wrong in TOML (of 214 kinds), and must be `not TOML`. Python's tomllib reads each document of 1.0 too and must find the same tree;
# a quarter of these are then damaged byte by byte, and tomllib decides where 1.0 and 1.1 agree on the reading.
# usage: night.sh MINUTES [SEED]
. "$(dirname -- "$0")/../tools/usage.sh"
takes 1 2 "$@"
takes_numbers "$@"
cd "$(dirname -- "$0")/../examples" || exit 1
seed=${2:-$(date -u +%Y%m%d)}
echo "night: seed $seed, $1 minutes"
if ! python3 -c 'import sys; sys.exit(sys.version_info < (3, 9))' 2>/dev/null; then
    echo "night: skipped, there is no python3 of version 3.9 or later"
    exit 0
fi
python3 -c 'import tomllib' 2>/dev/null || echo 'night: no second reader of TOML, since this python3 has no tomllib'
if [ -z "${PROGRAM:-}" ]; then
    ../edfvd >/dev/null
    PROGRAM=$(../prebuilt/program.sh) || exit 1
fi
folder=${FOLDER:-}
[ -n "$folder" ] || folder=$(mktemp -d "${TMPDIR:-/tmp}/edfvd-night-$seed-XXXXXX") || exit 1
night=
# An empty folder that was made here goes again.
trap '[ -z "$night" ] || kill "$night" 2>/dev/null; [ -n "${FOLDER:-}" ] || rmdir "$folder" 2>/dev/null' EXIT
trap 'exit 1' HUP INT TERM
python3 -B ../checks/night.py "$PROGRAM" "$1" "$seed" "$folder" &
night=$!
wait "$night"
status=$?
night=
exit "$status"
