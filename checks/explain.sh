#!/bin/sh
# Compares what explain.py says of the judged examples with the texts in explained/, and what the tools find with model.py on
# 100 cases made by a fixed seed, or as many as are asked for. Then perfetto.py, record/sched.py on the kept recordings (nothing
# is recorded; whole, in other forms, damaged, of another processor, without switches, with a tick too long, with a task that never
# has one), that fifo.c compiles, the digests of flight.py's ten thousand jobs, the tests of tools_check.py, pages of docs beside what
# they speak of, and definitions.py's limits. No built program is needed.
# usage: explain.sh [CASES [SEED]]
. "$(dirname -- "$0")/../tools/usage.sh"
takes_numbers "$@"
cd "$(dirname -- "$0")/../examples" || exit 1
if ! python3 -c 'import tomllib' 2>/dev/null; then
    echo "explain: skipped, there is no python3 of version 3.11 or later"
    exit 0
fi
work=$(mktemp -d) || exit 1
trap 'rm -rf "$work"' EXIT
trap 'exit 1' HUP INT TERM
failed=0

# wants STATUS TEXT SCRIPT WORDS..: the script gives this status, and the text of this file
wants() {
    want=$1
    text=$2
    shift 2
    python3 -B "$@" >"$work/out" 2>"$work/err"
    status=$?
    if [ "$status" -ne "$want" ] || ! cmp -s "$text" "$work/out"; then
        failed=$((failed + 1))
        echo "$*: status $status, wanted $want; the text wanted (<) and written (>):"
        diff "$text" "$work/out" | head -n 10
    fi
}

wants 6 explained/discarded.txt ../tools/explain.py judged/tasks.toml judged/illegal.csv
wants 6 explained/not_least.txt ../tools/explain.py judged/tasks.toml judged/late.csv
wants 6 judged/late.txt ../tools/explain.py judged/tasks.toml judged/late.csv 1 1
wants 0 judged/legal.txt ../tools/explain.py judged/tasks.toml judged/legal.csv
# A set that is refused, with a trace that is none.
wants 3 refused/periods.txt ../tools/explain.py refused/periods.toml overrun/work.csv
wants 1 refused/high_load.txt ../tools/explain.py refused/high_load.toml overrun/work.csv
wants 6 explained/in_a_run.txt ../tools/explain.py runs/tasks.toml explained/in_a_run.csv
wants 6 explained/too_soon.txt ../tools/explain.py runs/tasks.toml explained/too_soon.csv
wants 0 judged/legal.txt ../tools/explain.py runs/tasks.toml runs/long.csv
wants 0 judged/legal.txt ../tools/explain.py certified/tasks.toml certified/run.txt
wants 0 judged/legal.txt ../tools/explain.py certified/grown.toml certified/run.txt
wants 6 explained/outgrown.txt ../tools/explain.py certified/outgrown.toml certified/run.txt

# A trace for a viewer, of either version, and traces made of the texts in record/, with how far their events were moved.
wants 0 runs/perfetto.json ../tools/perfetto.py runs/tasks.toml runs/runs.csv
wants 0 runs/perfetto.json ../tools/perfetto.py runs/tasks.toml runs/rows.csv
for name in by_hand by_hand_late_loop; do
    wants 0 "record/$name.csv" ../tools/record/sched.py -v control/tasks.toml "record/$name.txt" 1000 0 ctl=ctl log=log ticker=-
    cmp "../checks/record/$name.moves" "$work/err" || failed=$((failed + 1))
done
wants 0 judged/legal.txt ../tools/explain.py control/tasks.toml record/by_hand.csv
wants 6 record/by_hand_late_loop.judged ../tools/explain.py control/tasks.toml record/by_hand_late_loop.csv
# refuses LINE WORDS..: sched.py refuses the recording with this line
: >"$work/nothing"
refuses() {
    line=$1
    shift
    wants 1 "$work/nothing" ../tools/record/sched.py "$@"
    if ! grep -qxF "sched: $line" "$work/err"; then
        failed=$((failed + 1))
        echo "sched.py $*: $(cat "$work/err"), wanted: $line"
    fi
}
refuses 'line 3: thread ticker-70 is in no map' control/tasks.toml record/by_hand.txt 1000 0 ctl=ctl log=log
for lost in '[LOST 7 EVENTS]' '[EVENTS DROPPED]' '[7 EVENTS DROPPED]'; do
    (sed 4q record/by_hand.txt; echo "CPU:0 $lost") >"$work/lost.txt"
    refuses 'line 5: events were lost' control/tasks.toml "$work/lost.txt" 1000 0 ctl=ctl log=log ticker=-
done
# What would be an empty trace, or one of idle ticks alone: another processor, a tick of seconds in place of milliseconds, and
# markers without any switch, with `finish` after eight ticks and without.
refuses 'no whole tick of 1000 us is recorded on this processor' control/tasks.toml record/by_hand.txt 1000 1 ctl=ctl log=log ticker=-
refuses 'no whole tick of 1000000 us is recorded on this processor' control/tasks.toml record/by_hand.txt 1000000 0 ctl=ctl log=log ticker=-
grep -v sched_switch record/by_hand.txt >"$work/markers.txt"
refuses 'no whole tick of 1000 us is recorded on this processor' control/tasks.toml "$work/markers.txt" 1000 0 ctl=ctl
echo ' ticker-70 [000] 100.008020: print: tracing_mark_write: finish' >>"$work/markers.txt"
refuses 'tick 0: no thread is recorded on this processor' control/tasks.toml "$work/markers.txt" 1000 0 ctl=ctl
# A task that is released and has no tick is taken only by the option: here the time of its thread is overhead.
sed 13d record/by_hand.txt >"$work/unserved.txt"
refuses 'line 5: log is released and has no tick, which --unserved takes' control/tasks.toml "$work/unserved.txt" 1000 0 ctl=ctl log=- ticker=-
{ sed 5q record/by_hand.csv; echo idle,2,6,,,; } >"$work/unserved.csv"
wants 0 "$work/unserved.csv" ../tools/record/sched.py --unserved control/tasks.toml "$work/unserved.txt" 1000 0 ctl=ctl log=- ticker=-
sed 's/release log/drop log/' "$work/unserved.txt" >"$work/dropped.txt"
sed 's/log,1,kept/log,1,dropped/' "$work/unserved.csv" >"$work/dropped.csv"
wants 0 "$work/dropped.csv" ../tools/record/sched.py control/tasks.toml "$work/dropped.txt" 1000 0 ctl=ctl log=- ticker=-

# The same events as a CSV file, whose lines have the numbers of those of the text.
wants 0 record/by_hand.csv ../tools/record/sched.py -v control/tasks.toml record/by_hand_events.csv 1000
cmp ../checks/record/by_hand.moves "$work/err" || failed=$((failed + 1))
# refused_events WORDS LINE: that file spoilt by these words of sed is refused with this line
refused_events() {
    sed "$1" record/by_hand_events.csv >"$work/spoilt.csv"
    refuses "$2" control/tasks.toml "$work/spoilt.csv" 1000
}
refused_events 1d 'line 1: the header is not time,event,task'
refused_events '5s/,log//' 'line 5: not three fields'
refused_events '5s/14/0.014s/' 'line 5: 0.014s is no time'
refused_events '5s/14/9/' 'line 5: its time is before that of line 4'
refused_events '5s/release/ready/' 'line 5: ready is no event'
refused_events '5s/log/logger/' 'line 5: release of logger, which is no task'
refused_events '/,run,/d' 'no whole tick of 1000 us is recorded on this processor'
refused_events '/,log/d;s/release,ctl/release,log/' 'line 4: log is released and has no tick, which --unserved takes'
# An ordinary process in the place of idleness, which * takes for it; a real-time thread it does not take.
sed 's,swapper/0:0,make:900,g' record/by_hand.txt >"$work/made.txt"
wants 0 record/by_hand.csv ../tools/record/sched.py control/tasks.toml "$work/made.txt" 1000 0 ctl=ctl log=log ticker=- '*=.'
refuses 'line 3: thread ticker-70 is in no map' control/tasks.toml "$work/made.txt" 1000 0 ctl=ctl log=log '*=.'

# of_fifo STATUS TRACE REPORT: sched.py on a recording of fifo or of posix
of_fifo() {
    wants "$1" "$2" ../tools/record/sched.py -v record/tasks.toml "$3" 10000 1 ctl=ctl nav=nav log=log ticker=- migration/1=- rest=.
}

# refused_with WORDS LINE: fifo's recording spoilt by these words of sed is refused with this line
refused_with() {
    sed "$1" record/rules.txt >"$work/spoilt.txt"
    refuses "$2" record/tasks.toml "$work/spoilt.txt" 10000 1 ctl=ctl nav=nav log=log ticker=- migration/1=- rest=.
}

# Recordings of real threads, and the verdicts on them.
for name in rules plain keep stolen; do
    of_fifo 0 "record/$name.csv" "record/$name.txt"
    cmp "../checks/record/$name.moves" "$work/err" || failed=$((failed + 1))
    [ "$name" = rules ] || wants 6 "record/$name.judged" ../tools/explain.py record/tasks.toml "record/$name.csv"
done
wants 0 judged/legal.txt ../tools/explain.py record/tasks.toml record/rules.csv
# Threads that the proved scheduler dispatched: the same trace, and one with a thread that ignores its budget.
of_fifo 0 record/rules.csv record/posix.txt
cmp ../checks/record/posix.moves "$work/err" || failed=$((failed + 1))
of_fifo 0 record/greedy.csv record/greedy.txt
cmp ../checks/record/greedy.moves "$work/err" || failed=$((failed + 1))
# The forms of `report -l` and of the kernel's own file say the same, and what is missing or wrong is named.
sed 's/-\([0-9]*\) *\[001\] */-\1   1d..2. /' record/rules.txt >"$work/flags.txt"
of_fifo 0 record/rules.csv "$work/flags.txt"
sed -E -e 's/ ([^ ]+):([0-9]+) \[([0-9]+)\] (.) ==>/ prev_comm=\1 prev_pid=\2 prev_prio=\3 prev_state=\4 ==>/' \
    -e 's/==> ([^ ]+):([0-9]+) \[([0-9]+)\]$/==> next_comm=\1 next_pid=\2 next_prio=\3/' \
    -e 's/: print: *tracing_mark_write:/: tracing_mark_write:/' record/rules.txt >"$work/kernel.txt"
of_fifo 0 record/rules.csv "$work/kernel.txt"
refused_with 19d 'line 20: thread 7896 leaves the processor, which thread 7892 had'
refused_with '17s/nav/navy/' 'line 17: marker release of navy, which is no task'
refused_with '22s/release/end/' 'line 22: log ends and has no tick of its own since its release'
refused_with '20s,.*,<idle>-0 [002] 3131.83: sched_switch: swapper/2:0 [120] R ==> nav:7896 [49],' \
    'line 20: nav runs on processor 2'
refused_with '133s/migration/stopper/' 'line 133: thread stopper/1-21 is in no map'

# fifo's source is still a program, which refuses words that it does not know.
if [ "$(uname)" = Linux ] && command -v cc >/dev/null 2>&1; then
    cc -O2 -Wall -Wextra -pthread -o "$work/fifo" ../tools/record/fifo.c || failed=$((failed + 1))
    "$work/fifo" record/tasks.toml record/work.csv 40 10000 1 otherwise 2>"$work/err"
    [ $? -eq 2 ] || failed=$((failed + 1))
fi

# Ten thousand jobs of twelve tasks: the digests of the files that are made, and of the trace that follows.
wants 0 flight/expected.txt ../checks/flight.py "$work"

python3 -B ../checks/tools_check.py || failed=$((failed + 1))
python3 -B ../checks/explain_check.py "${1:-100}" "${2:-1}" || failed=$((failed + 1))
python3 -B ../checks/pages.py || failed=$((failed + 1))
# Each wrong body still applies to its source, those of the gate and those that it leaves out.
python3 -B ../checks/wrong_bodies.py || failed=$((failed + 1))
# How many lines of definitions the headline reaches, and the longest of them; too many or too long is a failure.
python3 -B ../checks/definitions.py headline >"$work/out" || failed=$((failed + 1))
grep -E '^(headline|longest line|definitions):' "$work/out"
echo "explain: $failed failed"
[ "$failed" -eq 0 ]
