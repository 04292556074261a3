#!/bin/sh
# Runs the built program under faults that stay, or come again and again: all growths of memory from the k-th on refused, and each
# one with a chance of one in n by a seed; each open, each read, each write, or all of them failing from the k-th on; the mmaps
# and the clones of the whole process refused by the system from then on (by a filter, seccomp); reads of 1, 7 or 4096 bytes, a disk
# that is full after some bytes. n is 2, 5, 20 and 100. Each k up to 8 is tried, then each about an eighth greater, and the last one.
# A run of each command, with good and with wrong files, gives
# - under faults of memory the whole answer, or status 9 and nothing written; if clones are refused, the whole answer;
# - if opens or reads fail, the whole answer, or status 7 and the line of its file; if writes fail, status 8 and a front of the text;
# - if all of them fail, status 8 and a front of the text, which is empty if a read failed.
# usage: lasting.sh [SEEDS]
. "$(dirname -- "$0")/../tools/usage.sh"
takes 0 1 "$@"
takes_numbers "$@"
cd "$(dirname -- "$0")/../examples" || exit 1
. ../checks/expect.sh
seeds=${1:-3}
if ! has_library; then
    echo 'lasting: skipped, there is no C compiler'
    exit 0
fi

# in_steps COUNT: the numbers up to 8, then about each eighth more, and the last
in_steps() {
    awk -v count="${1:-0}" 'BEGIN { for (k = 1; k <= count; k += int(1 + k / 8)) { print k; last = k } if (last < count) print count }'
}

# notes WHAT TEST..: notes one run, for which the test has to hold
notes() {
    what=$1
    shift
    runs=$((runs + 1))
    if ! "$@"; then
        failed=$((failed + 1))
        echo "edfvd $what: status $status, $(wc -c <"$work/out") bytes written; refused $(reported refused)"
    fi
}

# is_as_ever: the answer is whole
is_as_ever() {
    [ "$status" -eq "$ordinary" ] && cmp -s "$work/out" "$work/ordinary"
}

# is_out_of_memory: the answer is whole, or memory ran out and nothing was written
is_out_of_memory() {
    is_as_ever || { [ "$status" -eq 9 ] && [ ! -s "$work/out" ]; }
}

# is_front FILE: what was written is a front of the file, and not all of it
is_front() {
    written=$(wc -c <"$work/out")
    [ "$written" -lt "$(wc -c <"$1")" ] && head -c "$written" "$1" | cmp -s - "$work/out"
}

# is_fault KIND: the answer is whole, where no such call was left, or that of the first call that failed; where all fail, no
# line of a read fault is written either
is_fault() {
    case $(reported refused) in
    nothing) is_as_ever ;;
    write) [ "$status" -eq 8 ] && is_front "$work/ordinary" ;;
    *) if [ "$1" = all ]; then
        [ "$status" -eq 8 ] && [ ! -s "$work/out" ]
    else
        [ "$status" -eq 7 ] && cmp -s "$work/out" "$(says "read fault on file $(reported 'refused [a-z]*')")"
    fi ;;
    esac
}

# is_full BYTES: the first bytes of the text, as many as the disk took
is_full() {
    if [ "$1" -ge "$(wc -c <"$work/ordinary")" ]; then
        is_as_ever
    else
        [ "$status" -eq 8 ] && [ "$(wc -c <"$work/out")" -eq "$1" ] && is_front "$work/ordinary"
    fi
}

# memory WORDS..: faults of memory that stay, or come by a seed
memory() {
    for growth in $(in_steps "$growths"); do
        refuse "GROWTHS_FROM=$growth" "$@"
        notes "$* with all growths from $growth on refused" is_out_of_memory
        [ "$status" -ne 9 ] || nines=$((nines + 1))
    done
    for one_in in 2 5 20 100; do
        seed=1
        while [ "$seed" -le "$seeds" ]; do
            refuse "ONE_IN=$one_in SEED=$seed" "$@"
            notes "$* with one growth in $one_in refused by seed $seed" is_out_of_memory
            [ "$status" -ne 9 ] || nines=$((nines + 1))
            seed=$((seed + 1))
        done
    done
}

# system WORDS..: the system refuses each mmap from some growth on, or each clone from some start of a thread on
system() {
    for growth in 1 2 $((growths / 2)) "$growths"; do
        refuse "NO_MAPS=$growth" "$@"
        notes "$* with no mmap from growth $growth on" is_out_of_memory
    done
    for start in $(in_steps "$starts"); do
        refuse "NO_CLONES=$start" "$@"
        notes "$* with no clone from start $start on" is_as_ever
    done
}

# files WORDS..: calls on files that fail for good, give few bytes, or meet a full disk
files() {
    for kind in open read write all; do
        only=
        [ "$kind" = all ] || only="KIND=$kind"
        for call in $(in_steps "$calls"); do
            # What `accept` opens says how many processors there are, and it does without.
            case $1:$kind in accept:open | accept:read) continue ;; esac
            refuse "MOST=50 CALLS_FROM=$call $only" "$@"
            notes "$* with each $kind from call $call on failing" is_fault "$kind"
        done
    done
    for bytes in 1 7 4096; do
        refuse "MOST_READ=$bytes" "$@"
        notes "$* with reads of $bytes bytes" is_as_ever
    done
    for bytes in 0 1 10 100 "$(($(wc -c <"$work/ordinary") - 1))" "$(wc -c <"$work/ordinary")"; do
        refuse "FULL=$bytes" "$@"
        notes "$* with a disk that is full after $bytes bytes" is_full "$bytes"
    done
}

# lasts WORDS..: all of these
lasts() {
    bounded "$program" "$@" >"$work/ordinary"
    ordinary=$?
    refuse NO_MAPS=1 "$@"
    filters=$(reported filters)
    refuse MOST=50 "$@"
    calls=$(reported calls)
    growths=$(reported growths)
    starts=$(reported starts)
    nines=0
    before=$runs
    memory "$@"
    [ "${filters:-0}" -lt 1 ] || system "$@"
    files "$@"
    echo "edfvd $*: ${growths:-no} growths, ${calls:-no} calls, ${starts:-no} starts of threads; $((runs - before)) runs, $nines out of memory"
    [ "$nines" -gt 0 ] || failed=$((failed + 1))
}

for_examples lasts
[ "${filters:-0}" -ge 1 ] || echo 'lasting: no mmap and no clone was refused, since the system takes no filter'
ends lasting
