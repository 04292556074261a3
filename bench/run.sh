#!/bin/sh
# Measures `check` on files at the limits, beside `wc -l` of the same file, `run` and `judge`: time, peak memory and
# instructions.
cd "$(dirname -- "$0")" || exit 1
if ! [ -x /usr/bin/time ]; then
    echo 'bench: skipped, there is no /usr/bin/time'
    exit 0
fi
work=$(mktemp -d) || exit 1
trap 'rm -rf "$work"' EXIT
trap 'exit 1' HUP INT TERM
../edfvd check ../examples/control/tasks.toml >"$work/out" || exit 1
program=$(../prebuilt/program.sh) || exit 1

# The control set, padded with comment lines to 16,777,216 bytes.
length=$(wc -c <../examples/control/tasks.toml)
{
    cat ../examples/control/tasks.toml
    yes '# a comment of forty bytes, as people write' | head -c $((16777216 - length - 1))
    echo
} >"$work/comments.toml"

. ./sets.sh
long_names_set

# measure NAME RUNS COMMAND..: the time of RUNS runs, and the peak memory of one
measure() {
    name=$1
    runs=$2
    shift 2
    /usr/bin/time -f '%M' "$@" 2>"$work/memory" >"$work/out"
    # shellcheck disable=SC2016
    seconds=$(runs=$runs /usr/bin/time -f '%e s (processor: %U s, and %S s in the system)' sh -c 'n=0; while [ $n -lt $runs ]; do "$@" >/dev/null; n=$((n + 1)); done' sh "$@" 2>&1)
    echo "$name: $runs runs in $seconds, $(tail -n 1 "$work/memory") KiB; $(head -n 1 "$work/out" | cut -c 1-60)"
}

measure 'check, 16 MiB of comments' 20 "$program" check "$work/comments.toml"
measure 'wc -l, 16 MiB of comments' 20 wc -l "$work/comments.toml"
measure 'check, 128 tasks' 200 "$program" check "$work/tasks.toml"
measure 'wc -l, 128 tasks' 200 wc -l "$work/tasks.toml"

. ./workloads.sh

# instructions WORDS..: how many the program takes, by callgrind, which repeats exactly
instructions() {
    if command -v valgrind >/dev/null 2>&1; then
        valgrind --tool=callgrind --callgrind-out-file=/dev/null "$program" "$@" 2>&1 >/dev/null | sed -n 's/.*Collected : /instructions: /p'
    fi
}

measure 'run, avionics, 1,000,000 ticks' 5 "$program" run "$work/avionics.toml" "$work/avionics.csv" 1000000
measure 'run, 128 tasks, 999,936 jobs' 5 "$program" run "$work/crowd.toml" "$work/crowd.csv" 1000000
for ticks in 100000 200000; do
    echo "run, avionics, $ticks ticks: $(instructions run "$work/avionics.toml" "$work/avionics.csv" $ticks)"
done
# Rows of work: of a run of one tick, which no thread has to wait in.
for rows in 499968 999936; do
    head -n $((rows + 1)) "$work/crowd.csv" >"$work/part.csv"
    echo "run, 128 tasks, 1 tick, $rows rows of work: $(instructions run "$work/crowd.toml" "$work/part.csv" 1)"
done

# Traces: the avionics run, that of 128 tasks that take turns, 2,000,000 idle rows, and half a million pending jobs at a time.
"$program" run "$work/avionics.toml" "$work/avionics.csv" 1000000 >"$work/avionics_trace.csv"
"$program" run "$work/crowd.toml" "$work/crowd.csv" 1000000 >"$work/crowd_trace.csv"
idles 1 2000000 >"$work/idle_trace.csv"
two_tasks
two_rows 1500000 >"$work/two_trace.csv"

measure 'judge, avionics, 1,000,000 ticks' 5 "$program" judge "$work/avionics.toml" "$work/avionics_trace.csv"
measure 'judge, 128 tasks in turn, 1,999,936 rows' 5 "$program" judge "$work/crowd.toml" "$work/crowd_trace.csv"
measure 'judge, 2,000,000 idle rows' 5 "$program" judge "$work/avionics.toml" "$work/idle_trace.csv"
measure 'judge, 1,500,000 rows, half a million pending jobs' 5 "$program" judge "$work/two.toml" "$work/two_trace.csv" 1 1
measure 'chart, avionics, 1,000,000 ticks' 5 "$program" chart "$work/avionics.toml" "$work/avionics_trace.csv"
measure 'report, avionics, 1,000,000 ticks' 5 "$program" report "$work/avionics.toml" "$work/avionics_trace.csv"
measure 'soak 1 32 1000000' 5 "$program" soak 1 32 1000000
for ticks in 100000 200000; do
    echo "soak 1 32, $ticks ticks: $(instructions soak 1 32 $ticks)"
done
cp "$work/avionics.toml" "$work/idle.toml"
for trace in avionics crowd idle; do
    for rows in 100000 200000; do
        head -n $((rows + 1)) "$work/${trace}_trace.csv" >"$work/part.csv"
        for command in judge chart report; do
            echo "$command, $trace, $rows rows: $(instructions $command "$work/$trace.toml" "$work/part.csv")"
        done
    done
done
for rows in 300000 600000; do
    head -n $((rows + 1)) "$work/two_trace.csv" >"$work/part.csv"
    echo "judge, two tasks, $rows rows: $(instructions judge "$work/two.toml" "$work/part.csv" 1 1)"
done
