#!/bin/sh
# Counts the instructions of the program beside those of plain.rs, a judge, a report, a migration, a chart and a live run in plain
# Rust, on the same files, and sees that both give the same text; of a live run, of which many texts are right, that both texts are
# legal. PROGRAM=FILE measures another built program.
cd "$(dirname -- "$0")" || exit 1
for command in valgrind rustc; do
    if ! command -v "$command" >/dev/null 2>&1; then
        echo "plain: skipped, there is no $command"
        exit 0
    fi
done
work=$(mktemp -d) || exit 1
trap 'rm -rf "$work"' EXIT
trap 'exit 1' HUP INT TERM
[ -n "${PROGRAM:-}" ] || ../edfvd check ../examples/control/tasks.toml >"$work/out" || exit 1
program=${PROGRAM:-$(../prebuilt/program.sh)} || exit 1
rustc -O --edition 2021 -o "$work/plain" plain.rs || exit 1
failed=0

. ./sets.sh
turns_set

# count PROGRAM WORDS..: its instructions
count() {
    valgrind --tool=callgrind --callgrind-out-file=/dev/null "$@" 2>&1 >"$work/text" | sed -n 's/.*Collected : //p'
}

# beside NAME COMMAND TASKS TRACE: the instructions of both, whose texts are the same
beside() {
    mine=$(count "$program" "$2" "$3" "$4")
    cp "$work/text" "$work/first"
    other=$(count "$work/plain" "$2" "$3" "$4")
    if ! cmp -s "$work/text" "$work/first"; then
        echo "$1: the texts differ"
        failed=1
    fi
    awk -v name="$1" -v mine="$mine" -v other="$other" 'BEGIN { printf "%s: %.0f, in plain Rust %.0f: %.2f times\n", name, mine, other, mine / other }'
}

# each NAME MAKE VERSION: the instructions of a record, by 20,000 and 40,000 of them
each() {
    for records in 20000 40000; do "$2" "$3" $records >"$work/$records.csv"; done
    for command in judge report migrate; do
        for of in "$program" "$work/plain"; do
            first=$(count "$of" $command "$work/turns.toml" "$work/20000.csv")
            second=$(count "$of" $command "$work/turns.toml" "$work/40000.csv")
            echo "$first $second"
        done | awk -v name="$command, $1" 'NR == 1 { mine = ($2 - $1) / 20000 } NR == 2 { other = ($2 - $1) / 20000 }
            END { printf "%s: %d a record, in plain Rust %d: %.2f times\n", name, mine, other, mine / other }'
    done
}

printf 'event,tick,length,task,job,how\nidle,0,100000000,,,\n' >"$work/long.csv"
printf 'event,tick,length,task,job,how\n' >"$work/none.csv"
for command in judge report migrate; do
    beside "$command, no record" $command ../examples/control/tasks.toml "$work/none.csv"
    beside "$command, one idle run of 100,000,000 ticks" $command ../examples/control/tasks.toml "$work/long.csv"
done
each '8 tasks in turn, version 1' turns 1
each '8 tasks in turn, version 2' turns 2
each 'idle ticks, version 1' idles 1
each 'idle ticks, version 2' idles 2
turns 2 2000000 >"$work/full.csv"
for command in judge report migrate; do
    beside "$command, 2,000,000 records of 8 tasks in turn" $command "$work/turns.toml" "$work/full.csv"
done

# The avionics run in records of equal ticks, as `run` writes it.
. ./workloads.sh
"$program" run "$work/avionics.toml" "$work/avionics.csv" 1000000 >"$work/packed.csv"
for command in judge report migrate chart; do
    beside "$command, the avionics run, 1,000,000 ticks in $(wc -l <"$work/packed.csv") records" $command "$work/avionics.toml" "$work/packed.csv"
done

# The instructions of a tick of `live`, of 32 tasks of period 200 that need 2 or 3 ticks, by 2,000 and 6,000 ticks.
live_set
for of in "$program" "$work/plain"; do
    for ticks in 2000 6000; do
        count "$of" live "$work/live.toml" $ticks >>"$work/counts"
        if ! "$program" judge "$work/live.toml" "$work/text" >"$work/verdict"; then
            echo "live of $of: $(cat "$work/verdict")"
            failed=1
        fi
    done
done
awk '{ counts[NR] = $1 } END { mine = (counts[2] - counts[1]) / 4000; other = (counts[4] - counts[3]) / 4000
    printf "live, 32 tasks: %d a tick, in plain Rust %d: %.2f times\n", mine, other, mine / other }' "$work/counts"
exit $failed
