#!/bin/sh
# Records fifo with the tasks and the work of examples/record on a processor, in ticks of 10 ms, by trace-cmd, as root; or, with the word
# posix, the program c/examples/posix.c, which serves the same work by the proved scheduler, and for which c/build.sh must have built the
# library. With greedy a thread of that program ignores its budget. Where the kernel lets trace-cmd have no function tracer,
# `trace-cmd record` refuses to begin; then its commands set and extract do the same. The text begins where the thread that keeps the
# processor first has it, and ends with `finish`. Left out within are the wakings of threads that have no real-time priority, which
# timers of other programs cause. What is set meanwhile is put back, even if the script is ended in the middle. TRACING and RT_LIMIT
# name other files than the kernel's, and LIBRARY another library, to try this without them.
# usage: record.sh TEXT [plain|keep|posix|greedy]
#        as root, with trace-cmd and a C compiler
. "$(dirname -- "$0")/../usage.sh"
takes 1 2 "$@"
rule=${2-}
# The priority of the thread that keeps the processor while no job has work, as the kernel counts it.
resting=98
case $rule in
'' | plain | keep) ;;
posix | greedy) resting=97 ;;
*) wrong_words ;;
esac
text=$(readlink -f -- "$1") || { echo "record.sh: $1 is in no folder" >&2; exit 1; }
cd "$(dirname -- "$0")" || exit 1
inputs=../../examples/record
c=../../c
library=${LIBRARY:-$c/out/libedfvd_core.a}
processor=1
mask=2
tracing=${TRACING:-/sys/kernel/tracing}
limit=${RT_LIMIT:-/proc/sys/kernel/sched_rt_runtime_us}
work=$(mktemp -d) || exit 1
: >"$work/kept"
child=

# finish: ends what runs, and puts back what was set
finish() {
    [ -z "$child" ] || { kill "$child" && wait "$child"; } 2>/dev/null
    while read -r file value; do
        echo "$value" >"$file"
    done <"$work/kept"
    rm -rf "$work"
}
trap finish EXIT
trap 'exit 1' HUP INT TERM

# keep FILE: its value is put back at the end; of several values the one in brackets
keep() {
    value=$(cat "$1") || exit 1
    echo "$1 $value" | sed 's/ .*\[\(.*\)\].*/ \1/' >>"$work/kept"
}

# program: compiles the program that is recorded, as $work/program
program() {
    case $rule in
    posix | greedy)
        if ! [ -e "$library" ]; then
            echo "record.sh: c/build.sh has not built the library" >&2
            return 1
        fi
        cc -O2 -pthread -I"$c" -o "$work/program" "$c/examples/posix.c" "$library"
        ;;
    *) cc -O2 -pthread -o "$work/program" fifo.c ;;
    esac
}

# by COMMAND..: runs the program under trace-cmd's command
by() {
    case $rule in
    posix) set -- "$@" "$work/program" 10000 "$processor" ;;
    greedy) set -- "$@" "$work/program" 10000 "$processor" greedy ;;
    *) set -- "$@" "$work/program" "$inputs/tasks.toml" "$inputs/work.csv" 40 10000 "$processor" ${rule:+"$rule"} ;;
    esac
    trace-cmd "$@" >"$work/out" 2>"$work/err" &
    child=$!
    wait "$child"
    set -- $?
    child=
    return "$1"
}

program || exit 1
[ -e "$tracing/trace_marker" ] || mount -t tracefs nodev "$tracing" || exit 1
for setting in current_tracer trace_clock tracing_cpumask events/sched/sched_switch/enable events/sched/sched_waking/enable tracing_on; do
    keep "$tracing/$setting"
done
# Threads of SCHED_FIFO may have all of the processor while this runs.
keep "$limit"
echo -1 >"$limit" || exit 1
what="-C mono -M $mask -e sched:sched_switch -e sched:sched_waking timeout 20"
# shellcheck disable=SC2086
if ! by record -o "$work/run.dat" $what; then
    # shellcheck disable=SC2086
    by set -d -p nop $what || { cat "$work/out" "$work/err"; exit 1; }
    echo 0 >"$tracing/tracing_on"
    trace-cmd extract -o "$work/run.dat" >/dev/null 2>&1 || exit 1
fi
grep '^\(fifo\|posix\): ' "$work/err"
grep 'late$' "$work/out"
trace-cmd report "$work/run.dat" 2>/dev/null |
    sed -n '/==> .*\['$resting'\]$/,${/sched_waking:.* prio=1[0-9][0-9] /!p;/: finish/q;}' >"$text"
