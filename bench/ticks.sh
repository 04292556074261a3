#!/bin/sh
# Counts the instructions of a tick in the core and the floor: those of the floor's calls for releases, grants, outcomes and
# idle ticks, with all that these call, in the thread of whichever task makes them. The word is a built program to measure in
# place of this one.
if [ $# -gt 0 ]; then
    program=$(readlink -f -- "$1") || exit 1
    cd "$(dirname -- "$0")" || exit 1
else
    cd "$(dirname -- "$0")" || exit 1
    program=$PWD/../crates/edfvd_program/out/edfvd_program
fi
if ! command -v valgrind >/dev/null 2>&1; then
    echo "ticks: skipped, there is no valgrind"
    exit 0
fi
work=$(mktemp -d) || exit 1
trap 'rm -rf "$work"' EXIT
trap 'exit 1' HUP INT TERM
[ $# -gt 0 ] || ../edfvd check ../examples/control/tasks.toml >"$work/out" || exit 1
. ./workloads.sh

# instructions NAME TICKS: how many instructions the floor's calls take in TICKS ticks of the workload, which repeats exactly
instructions() {
    valgrind --tool=callgrind --callgrind-out-file=/dev/null --collect-atstart=no '--toggle-collect=timetable::floor::Floor::*' \
        "$program" run "$work/$1.toml" "$work/$1.csv" "$2" 2>&1 >/dev/null | sed -n 's/.*Collected : //p'
}

# ticks NAME FIRST SECOND: those of a tick, as the difference of two runs. With many tasks a run takes long, since valgrind
# runs one thread at a time.
ticks() {
    first=$(instructions "$1" "$2")
    second=$(instructions "$1" "$3")
    echo "$1: $(((second - first) / ($3 - $2))) instructions a tick, by runs of $2 and $3"
}

ticks avionics 100000 200000
ticks light 1000 6000
ticks crowd 1000 3000
