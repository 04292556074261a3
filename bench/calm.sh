#!/bin/sh
# Measures runs in threads side by side: alone, on one processor, and beside 8 busy processes. For each it prints the least and
# the most time of a few runs, and the processor time of the last. The word is how many runs, 3 if there is none. A run has 60
# seconds.
cd "$(dirname -- "$0")" || exit 1
if ! [ -x /usr/bin/time ]; then
    echo 'calm: skipped, there is no /usr/bin/time'
    exit 0
fi
times=${1:-3}
work=$(mktemp -d) || exit 1
busy=
# idles: ends the busy processes
idles() {
    # shellcheck disable=SC2086
    [ -z "$busy" ] || kill $busy 2>/dev/null
    busy=
}
trap 'idles; rm -rf "$work"' EXIT
trap 'exit 1' HUP INT TERM
[ -n "${PROGRAM:-}" ] || ../edfvd check ../examples/control/tasks.toml >"$work/out" || exit 1
program=${PROGRAM:-$(../prebuilt/program.sh)} || exit 1
. ./workloads.sh

# 32 tasks that are all released at each 64th tick: 20 low ones, and 12 high ones of which each fourth job overruns.
awk 'BEGIN { for (i = 0; i < 32; i++) print "t" i, i < 20 ? "low" : "high", 64, 1, i < 20 ? "" : 4 }' | workload crew
printf 'task,release,need\n' >"$work/none.csv"

# busies: 8 processes that do nothing but take processors
busies() {
    number=0
    while [ "$number" -lt 8 ]; do
        (while :; do :; done) &
        busy="$busy $!"
        number=$((number + 1))
    done
}

# measure NAME COMMAND..: the times of the command
measure() {
    name=$1
    shift
    : >"$work/times"
    number=0
    while [ "$number" -lt "$times" ]; do
        timeout 60 /usr/bin/time -f '%e %U %S' "$@" >"$work/out" 2>"$work/err" || echo "60 and more, cut off" >"$work/err"
        tail -n 1 "$work/err" >>"$work/times"
        number=$((number + 1))
    done
    sort -n "$work/times" | awk -v name="$name" 'NR == 1 { least = $1 } { most = $0 }
        END { split(most, part, " "); printf "%s: %s to %s s (processor: %s s, and %s s in the system)\n", name, least, part[1], part[2], part[3] }'
}

# runs WHERE COMMAND..: each run, with these words before the program's
runs() {
    where=$1
    shift
    measure "$where, 128 tasks without jobs, 1,000,000 ticks" "$@" "$program" run "$work/light.toml" "$work/none.csv" 1000000
    measure "$where, 128 tasks in turn, 50,000 ticks" "$@" "$program" run "$work/crowd.toml" "$work/crowd.csv" 50000
    measure "$where, avionics, 1,000,000 ticks" "$@" "$program" run "$work/avionics.toml" "$work/avionics.csv" 1000000
    measure "$where, soak 1 2 1000000" "$@" "$program" soak 1 2 1000000
    measure "$where, soak 1 32 1000000" "$@" "$program" soak 1 32 1000000
    measure "$where, live, control set, 100,000 ticks" "$@" "$program" live ../examples/control/tasks.toml 100000
    measure "$where, live, 32 tasks, 100,000 ticks" "$@" "$program" live "$work/crew.toml" 100000
    measure "$where, live, 128 tasks, 100,000 ticks" "$@" "$program" live "$work/light.toml" 100000
}

runs 'alone' env
if command -v taskset >/dev/null 2>&1; then
    runs 'on one processor' taskset -c 0
fi
busies
runs 'beside 8 busy processes' env
idles
