#!/bin/sh
# Writes the path of the program of the sources that are here: the one that was built here, or else the prebuilt one. If neither is of
# these sources, a line says so, and the status is 1.
# usage: program.sh
. "$(dirname -- "$0")/tools.sh"
takes 0 0 "$@"
if ! choose; then
    echo "program.sh: the program is $why, and prebuilt has none of these sources; ./edfvd makes it" >&2
    exit 1
fi
printf '%s\n' "$chosen"
