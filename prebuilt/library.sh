#!/bin/sh
# Writes the path of the shared library of the sources that are here: the one that c/build.sh built, or else the prebuilt one. The
# Python package asks so. If neither is of these sources, a line says so, and the status is 1.
# usage: library.sh
. "$(dirname -- "$0")/tools.sh"
takes 0 0 "$@"
if ! choose_library; then
    echo 'library.sh: neither c/out nor prebuilt has a library that was built from these sources; c/build.sh makes it' >&2
    exit 1
fi
printf '%s\n' "$chosen"
