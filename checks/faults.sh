#!/bin/sh
# Runs the built program against real faults of files and of standard output, and, where there is a C compiler,
# refuses each open, each read, each write and each start of a thread of a few runs in turn, and has a signal interrupt each open,
# read and write. Each run ends, with its own status, and what was written is a front of the text. No run may take longer than a
# minute.
# - Real faults. Outputs: a full device, a closed output, a pipe without a reader (status 8 and no death by a signal), a pipe whose reader
#   leaves after 100 bytes (8, and the reader has these), a slow reader (everything). Files: a folder, one that may not be read (skipped
#   as root), an endless and an empty device, one that is cut while it is read (the answer to the bytes that were read), and named pipes,
#   with the bytes in one piece, in two, with no byte and without an end. For a named pipe that nobody opens, the program waits.
# - Refused calls (refusals.c): an open or a read that fails gives 7 and the line of its file; a write that fails or takes nothing gives
#   8. A write takes 8 bytes at most, in some runs 1 or 1000. Calls on /sys go through, where `accept` counts the processors. The script
#   prints how many calls of each run were refused.
# - Interruptions: each open, read and write three times before it goes through; status, text and the calls that go through stay the
#   same, and a call that fails after two still fails. The library sends no signal. What comes after 2^64 - 1 of them is proved.
# - Threads: in five calls each start fails in turn, and then all of them; status and output stay the same. So of a live run of eight
#   tasks over 20,000 ticks, each of whose texts is judged.
# usage: faults.sh
. "$(dirname -- "$0")/../tools/usage.sh"
takes 0 0 "$@"
cd "$(dirname -- "$0")/../examples" || exit 1
. ../checks/expect.sh

# Standard output that takes nothing, of each command: 8 in place of any other status, and no text.
# takes_nothing WORDS..
takes_nothing() {
    : >"$work/out"
    if [ -w /dev/full ]; then
        bounded "$program" "$@" >/dev/full
        judge 8 $? "$work/empty" "$*, to a full device"
    fi
    bounded "$program" "$@" >&-
    judge 8 $? "$work/empty" "$*, to a closed output"
    # The reader has gone before the program begins.
    { sleep 0.1; bounded "$program" "$@"; echo $? >"$work/status"; } | :
    judge 8 "$(cat "$work/status")" "$work/empty" "$*, to a pipe without a reader"
}

for_examples takes_nothing

# A pipe whose reader goes away after 100 bytes of 6 million: those are the first of the text.
printf 'event,tick,length,task,job,how\nidle,0,2000000,,,\n' >"$work/idle.csv"
bounded "$program" chart overrun/tasks.toml "$work/idle.csv" >"$work/idle"
head -c 100 "$work/idle" >"$work/front"
{ bounded "$program" chart overrun/tasks.toml "$work/idle.csv"; echo $? >"$work/status"; } | head -c 100 >"$work/out"
judge 8 "$(cat "$work/status")" "$work/front" 'chart, to a pipe that is closed early'
# A slow reader gets all.
{ bounded "$program" chart overrun/tasks.toml "$work/idle.csv"; echo $? >"$work/status"; } | { sleep 0.2; cat; } >"$work/out"
judge 0 "$(cat "$work/status")" "$work/idle" 'chart, to a slow reader'

# Files that cannot be read, and files without an end.
expect 7 "$(says 'read fault on file 1')" check "$work"
expect 7 "$(says 'read fault on file 2')" run overrun/tasks.toml "$work" 12
expect 7 "$(says 'read fault on file 2')" judge judged/tasks.toml "$work"
expect 7 "$(says 'read fault on file 1')" check control/tasks.toml/
expect 7 "$(says 'read fault on file 1')" check ''
expect 7 "$(says 'read fault on file 1')" demand "$work"
expect 7 "$(says 'read fault on file 1')" demand demand/within.csv/
expect 7 "$(says 'read fault on file 1')" partition "$work" 2
expect 7 "$(says 'read fault on file 2')" runall several/tasks.toml "$work" 5 2
expect 7 "$(says 'read fault on file 1')" stretch control/tasks.toml/
expect 7 "$(says 'file 1 is longer than 16777216 bytes')" check /dev/zero
expect 7 "$(says 'file 2 is longer than 16777216 bytes')" run overrun/tasks.toml /dev/zero 12
expect 7 "$(says 'file 2 is longer than 134217728 bytes')" judge judged/tasks.toml /dev/zero
expect 7 "$(says 'file 1 is longer than 16777216 bytes')" demand /dev/zero
expect 7 "$(says 'file 1 is longer than 16777216 bytes')" partition /dev/zero 2
expect 7 "$(says 'file 2 is longer than 16777216 bytes')" runall several/tasks.toml /dev/zero 5 2
expect 7 "$(says 'file 1 is longer than 16777216 bytes')" stretch /dev/zero
expect 3 "$(says 'task file: no tasks')" check /dev/null
expect 11 "$(says 'demand file line 1: header is not task,period,deadline,budget')" demand /dev/null
cp control/tasks.toml "$work/locked.toml"
chmod 000 "$work/locked.toml"
if [ "$(id -u)" -eq 0 ]; then
    echo 'faults: an unreadable file is skipped, since root reads every file'
else
    expect 7 "$(says 'read fault on file 1')" check "$work/locked.toml"
    expect 7 "$(says 'read fault on file 1')" demand "$work/locked.toml"
    expect 7 "$(says 'read fault on file 1')" partition "$work/locked.toml" 2
    expect 7 "$(says 'read fault on file 1')" stretch "$work/locked.toml"
fi

# Named pipes: whole, in pieces, and without a byte. One without a writer is waited for, as by any reader.
mkfifo "$work/pipe"
# feeds COMMAND..: what the command writes goes into the pipe, for a minute at most
feeds() {
    # shellcheck disable=SC2016
    bounded sh -c 'pipe=$1; shift; exec "$@" >"$pipe"' sh "$work/pipe" "$@" 2>/dev/null &
}
feeds cat control/tasks.toml
expect 0 control/check.txt check "$work/pipe"
feeds sh -c 'head -c 30 control/tasks.toml; sleep 0.2; tail -c +31 control/tasks.toml'
expect 0 control/check.txt check "$work/pipe"
feeds true
expect 3 "$(says 'task file: no tasks')" check "$work/pipe"
feeds cat overrun/work.csv
expect 0 overrun/run.txt run overrun/tasks.toml "$work/pipe" 12
feeds sh -c 'head -c 40 demand/sensor.csv; sleep 0.2; tail -c +41 demand/sensor.csv'
expect 10 demand/sensor.txt demand "$work/pipe"
feeds sh -c 'head -c 40 several/work.csv; sleep 0.2; tail -c +41 several/work.csv'
expect 0 several/runall.txt runall several/tasks.toml "$work/pipe" 5 2
feeds cat control/tasks.toml
expect 0 control/stretch.txt stretch "$work/pipe"
# A writer that never stops.
feeds cat /dev/zero
expect 7 "$(says 'file 1 is longer than 16777216 bytes')" check "$work/pipe"
wait

if ! has_library; then
    echo 'faults: each call refused is skipped, there is no C compiler'
    ends faults
    exit
fi

# is_front: what was written is the first bytes of the ordinary text, and not all of it
is_front() {
    written=$(wc -c <"$work/out")
    [ "$written" -lt "$(wc -c <"$work/ordinary")" ] && head -c "$written" "$work/ordinary" | cmp -s - "$work/out"
}

# is_reported: the run that failed has the status and the text for what was refused
is_reported() {
    case $(reported refused) in
    'open '* | 'read '*)
        [ "$status" -eq 7 ] && cmp -s "$work/out" "$(says "read fault on file $(reported 'refused [a-z]*')")"
        ;;
    write) [ "$status" -eq 8 ] && is_front ;;
    *) false ;;
    esac
}

# wants TEST WHAT: notes one run, for which the test has to hold
wants() {
    runs=$((runs + 1))
    if ! "$1"; then
        failed=$((failed + 1))
        echo "edfvd $2: status $status, $(wc -c <"$work/out") bytes written"
    fi
}

# is_as_ever: the run ended as the one without a refusal
is_as_ever() {
    [ "$status" -eq "$ordinary" ] && cmp -s "$work/out" "$work/ordinary"
}

# is_cut_short: the write took nothing
is_cut_short() {
    [ "$status" -eq 8 ] && is_front
}

# is_tried_again: the run ended as the one without interruptions, and each of its calls was interrupted three times
is_tried_again() {
    is_as_ever && [ "$(reported calls)" -eq "$count" ] && [ "$(reported interruptions)" -eq $((3 * count)) ]
}

# fails NUMBER WORDS..: with this call refused, and if it is a write, with one that takes nothing in its place
fails() {
    call=$1
    shift
    refuse "MOST=$most_bytes CALL=$call INTERRUPT=$signals" "$@"
    # `accept` asks for no file: what it opens says how many processors it may use, and it does without.
    case $1:$(reported refused) in
    'accept:open '* | 'accept:read '*)
        wants is_as_ever "$* with call $call refused"
        reads=$((reads + 1))
        return
        ;;
    esac
    wants is_reported "$* with call $call refused"
    if [ "$status" -eq 7 ]; then
        reads=$((reads + 1))
    else
        writes=$((writes + 1))
        refuse "MOST=$most_bytes STOP=$call" "$@"
        wants is_cut_short "$* with nothing taken by write $call"
    fi
}

# calls MOST WORDS..: with each call of their run interrupted, and with each refused, whose writes take at most MOST bytes
calls() {
    most_bytes=$1
    shift
    bounded "$program" "$@" >"$work/ordinary"
    ordinary=$?
    refuse "MOST=$most_bytes" "$@"
    judge "$ordinary" "$status" "$work/ordinary" "$*, written in pieces"
    count=$(reported calls)
    refuse "MOST=$most_bytes INTERRUPT=3" "$@"
    wants is_tried_again "$* with each call interrupted three times"
    reads=0
    writes=0
    each "$count" fails "$@"
    echo "edfvd $*: in pieces of $most_bytes, $reads opens and reads refused, $writes writes refused and stopped"
    [ "$writes" -gt 0 ] || failed=$((failed + 1))
}

# How many signals interrupt a call before it is refused.
signals=0
calls 1 check control/tasks.toml
calls 1000 check control/tasks.toml
calls 1000 run overrun/tasks.toml overrun/work.csv 12
calls 1 demand demand/past.csv
calls 1 partition several/tasks.toml 2
calls 1000 runall several/tasks.toml several/work.csv 5 2
calls 1 stretch control/tasks.toml
calls 1 accept 1 200 8
for_examples calls 8
signals=2
calls 1000 run overrun/tasks.toml overrun/work.csv 12

# starts NUMBER WORDS..: with this start of a thread refused, or all of them where the number is 0: the run ends as ever
starts() {
    start=$1
    shift
    refuse "START=$start" "$@"
    judge "$ordinary" "$status" "$work/ordinary" "$* with start $start of a thread refused"
}

# threads WORDS..: with each start of a thread of their run refused in turn, and with all
threads() {
    bounded "$program" "$@" >"$work/ordinary"
    ordinary=$?
    starts 0 "$@"
    refuse '' "$@"
    count=$(reported starts)
    each "$count" starts "$@"
    echo "edfvd $*: ${count:-no} starts of threads refused, one by one and all"
    [ "${count:-0}" -gt 0 ] || failed=$((failed + 1))
}

threads run overrun/tasks.toml overrun/work.csv 12
threads soak 7 8 20000
threads live live/tasks.toml 10
threads runall several/tasks.toml several/work.csv 5 2
# A study is worked out in pieces on as many threads as there are processors, so on one there is none to start.
[ "$(nproc 2>/dev/null || echo 1)" -lt 2 ] || threads accept 1 10000 8

# lives NUMBER TASKS TICKS: the same of a live run whose text may be another one each time: it is judged legal, with no job late
lives() {
    refuse "START=$1" live "$2" "$3"
    mv "$work/out" "$work/live.csv"
    : >"$work/out"
    judge 0 "$status" "$work/empty" "live $2 $3 with start $1 of a thread refused"
    expect 0 judged/legal.txt judge "$2" "$work/live.csv"
}

lives 0 avionics/tasks.toml 20000
each 8 lives avionics/tasks.toml 20000

# A file that is cut while it is read: the answer is that to the bytes that were read, the first piece of 8192.
{ cat control/tasks.toml; head -c 20000 /dev/zero | tr '\0' '\n'; } >"$work/cut.toml"
refuse "CUT=3 CUT_FILE=$work/cut.toml" check "$work/cut.toml"
judge 0 "$status" control/check.txt 'check, of a file cut while it is read'
{ cat overrun/work.csv; awk 'BEGIN { for (i = 2; i < 2000; i++) print "ctl," 10 * i ",2" }'; } >"$work/cut.csv"
head -c 8192 "$work/cut.csv" >"$work/first.csv"
bounded "$program" run overrun/tasks.toml "$work/first.csv" 12 >"$work/ordinary"
ordinary=$?
refuse "CUT=6 CUT_FILE=$work/cut.csv" run overrun/tasks.toml "$work/cut.csv" 12
judge "$ordinary" "$status" "$work/ordinary" 'run, with a work file cut while it is read'
{ cat several/work.csv; awk 'BEGIN { for (i = 3; i < 2000; i++) print "tap," 2 * i ",1" }'; } >"$work/cut.csv"
head -c 8192 "$work/cut.csv" >"$work/first.csv"
bounded "$program" runall several/tasks.toml "$work/first.csv" 20 2 >"$work/ordinary"
ordinary=$?
refuse "CUT=6 CUT_FILE=$work/cut.csv" runall several/tasks.toml "$work/cut.csv" 20 2
judge "$ordinary" "$status" "$work/ordinary" 'runall, with a work file cut while it is read'
{ cat demand/sensor.csv; head -c 20000 /dev/zero | tr '\0' '\n'; echo more; } >"$work/cut.csv"
refuse "CUT=3 CUT_FILE=$work/cut.csv" demand "$work/cut.csv"
judge 10 "$status" demand/sensor.txt 'demand, of a file cut while it is read'

ends faults
