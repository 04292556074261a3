#!/bin/sh
# Measures `partition` and `runall`: 128 tasks over 16 processors, and 4 and 16 parts for 1,000,000 ticks beside one of
# them by `run`. The word is a built program to measure in place of this one.
if [ $# -gt 0 ]; then
    program=$(readlink -f -- "$1") || exit 1
    cd "$(dirname -- "$0")" || exit 1
else
    cd "$(dirname -- "$0")" || exit 1
    program=$PWD/../crates/edfvd_program/out/edfvd_program
fi
work=$(mktemp -d) || exit 1
trap 'rm -rf "$work"' EXIT
trap 'exit 1' HUP INT TERM
[ $# -gt 0 ] || ../edfvd check ../examples/control/tasks.toml >"$work/out" || exit 1

. ./sets.sh
wide_set

# pairs COUNT: two tasks for each of COUNT processors, of which no two pairs fit on one, with their jobs at each release
pairs() {
    awk -v pairs="$1" 'BEGIN {
        for (i = 0; i < pairs; i++) {
            printf "\n[[task]]\nname = \"high%d\"\nlevel = \"high\"\nperiod = 200\nlow = 60\nhigh = 110\n", i
            printf "\n[[task]]\nname = \"low%d\"\nlevel = \"low\"\nperiod = 200\nlow = 80\n", i
        } }' >"$work/$1.toml"
    awk -v pairs="$1" 'BEGIN {
        print "task,release,need"
        for (t = 0; t < 1000000; t += 200)
            for (i = 0; i < pairs; i++) { print "high" i "," t ",60"; print "low" i "," t ",80" } }' >"$work/$1.csv"
}
for count in 1 4 16; do pairs $count; done

# least COMMAND..: the least wall and processor time of a run, out of five, and its peak memory
least() {
    if [ -x /usr/bin/time ]; then
        for _ in 1 2 3 4 5; do
            /usr/bin/time -f '%e %U %S %M' "$@" 2>&1 >/dev/null
        done | awk '{ if (NR == 1 || $1 < wall) wall = $1; if (NR == 1 || $2 + $3 < busy) busy = $2 + $3; if ($4 > most) most = $4 }
            END { printf "wall %.2f s, processors %.2f s, %d MiB", wall, busy, most / 1024 }'
    fi
}

"$program" partition "$work/wide.toml" 16 | sed 's/ t[0-9]*/ t/g' | awk '{ print $1, $2, NF - 2, "tasks" }' | tr '\n' ',' | sed 's/,$/\n/'
echo "partition of 128 tasks on 16: $(least "$program" partition "$work/wide.toml" 16), check: $(least "$program" check "$work/wide.toml")"
for count in 4 16; do
    "$program" partition "$work/$count.toml" "$count" | tail -n 1
    echo "runall of $count pairs: $(least "$program" runall "$work/$count.toml" "$work/$count.csv" 1000000 "$count")"
done
echo "run of one pair: $(least "$program" run "$work/1.toml" "$work/1.csv" 1000000)"
