#!/bin/sh
# Runs each command of the built program under valgrind's memcheck: as it is, refused, with growths of memory refused and with calls
# on files that fail, each without an invalid access, a value that was never set, or a block that is not freed. A run with faults reads
# 20 bytes at a time and has one of these in turn: one growth fails, all from one on, one in nine, or another call. With the word `races`
# the commands with threads run under helgrind, too, which takes some accesses of atomics for races (races.supp): any other fails. So
# tried by hand with `run`, `soak`, `live`, `runall` and `accept`, it found no other.
# WARNING: without valgrind nothing is tried.
# usage: memcheck.sh [races]
. "$(dirname -- "$0")/../tools/usage.sh"
takes 0 1 "$@"
case ${1:-} in
'' | races) ;;
*) wrong_words ;;
esac
cd "$(dirname -- "$0")/../examples" || exit 1
. ../checks/expect.sh
if ! command -v valgrind >/dev/null 2>&1; then
    echo 'memcheck: WARNING: nothing is tried, there is no valgrind' >&2
    exit 0
fi

# grinds SETTINGS WORDS..: runs the words under the tool in $tool, with the settings in the environment of the program alone; the
# program's status is in $status, its output in $work/out, and valgrind's words are in $work/log
grinds() {
    settings=$1
    shift
    # shellcheck disable=SC2086
    timeout 600 valgrind $tool --trace-children=yes --log-file="$work/log" env $settings "$program" "$@" >"$work/out" 2>"$work/err"
    status=$?
}

# notes WHAT TEST..: notes one run, for which the test has to hold
notes() {
    what=$1
    shift
    runs=$((runs + 1))
    if ! "$@"; then
        failed=$((failed + 1))
        echo "edfvd $what: status $status"
        sed -n 's/^==[0-9]*== //p' "$work/log" | head -n 20
    fi
}

# is_clean: valgrind found nothing, and the run ended by itself
is_clean() {
    [ "$status" -le 12 ] && grep -q 'ERROR SUMMARY: 0 errors' "$work/log"
}

# is_as_ever: valgrind found nothing, and the answer is that of a run without it
is_as_ever() {
    is_clean && [ "$status" -eq "$ordinary" ] && cmp -s "$work/out" "$work/ordinary"
}

# checks WORDS..: as it is, and then with one of the faults, in turn with the other examples
checks() {
    bounded "$program" "$@" >"$work/ordinary"
    ordinary=$?
    tool=$memcheck
    grinds '' "$@"
    notes "$* under memcheck" is_as_ever
    [ -n "$library" ] || return 0
    # Short reads, so that a buffer that is read into grows several times. The growth is another eighth of them each time.
    pieces='MOST=1000 MOST_READ=20'
    refuse "$pieces" "$@"
    growth=$(($(reported growths) * (turn % 7 + 1) / 8 + 1))
    case $((turn % 4)) in
    0) fault="GROWTH=$growth" ;;
    1) fault="GROWTHS_FROM=$growth" ;;
    2) fault="ONE_IN=9 SEED=$turn" ;;
    3) fault="CALL=$((($(reported calls) + 1) / 2))" ;;
    esac
    turn=$((turn + 1))
    # The library's own malloc stays before the one of the C library, which alone is valgrind's. What starts the program is not meant.
    tool="$memcheck --soname-synonyms=somalloc=nouserintercepts"
    grinds "IN=${program##*/} $pieces $fault LD_PRELOAD=$library" "$@"
    notes "$* under memcheck with $fault" is_clean
    [ "$status" -ne "$ordinary" ] && faults=$((faults + 1))
}

# races WORDS..: under helgrind each race is one of those that races.supp names
races() {
    bounded "$program" "$@" >"$work/ordinary"
    ordinary=$?
    tool=$helgrind
    grinds '' "$@"
    notes "$* under helgrind" is_as_ever
}

memcheck='--tool=memcheck --leak-check=full --show-leak-kinds=all --errors-for-leak-kinds=all'
helgrind="--tool=helgrind --num-callers=40 --suppressions=$PWD/../checks/races.supp"
library=
! has_library || library=$work/refusals.so
turn=0
faults=0
for_examples checks
echo "memcheck: $faults runs had another status by a fault"
if [ $# -gt 0 ]; then
    races run overrun/tasks.toml overrun/work.csv 12
    races soak 7 8 2000
    races live live/tasks.toml 10
    races runall several/tasks.toml several/work.csv 5 2
    races accept 1 1000 8
fi
ends memcheck
