#!/bin/sh
# Runs the built program under limits of the system, each in steps: of the address space, of the stack, of the size of a file and of
# the number of threads. Each run gives the whole answer, or has status 9 and writes nothing, or is ended by the system in a way that
# docs/COMMANDS.md names: it is not loaded, has too small a stack, or has written as much as a file may have. There are 14 sizes of
# address space from 1 MiB to 64 MiB, 8 of stack from 16 KiB to 8 MiB, and the size of a file that `chart` writes. Commands with threads
# also run where the user may have 1 to 16 threads in all: the answer is whole, since the caller does the work of a thread that cannot
# start. Root has no such limit, so root runs them as another user, who has no process.
# usage: limits.sh
. "$(dirname -- "$0")/../tools/usage.sh"
takes 0 0 "$@"
cd "$(dirname -- "$0")/../examples" || exit 1
. ../checks/expect.sh

# limited LETTER NUMBER WORDS..: a run under this limit of the shell's `ulimit`; its status is in $status, its output in $work/out
limited() {
    # shellcheck disable=SC2016
    bounded sh -c 'ulimit -S "-$1" "$2" && shift 2 && exec "$@"' sh "$1" "$2" "$program" "$3" ${4+"$4"} ${5+"$5"} ${6+"$6"} ${7+"$7"} \
        >"$work/out" 2>"$work/err"
    status=$?
}

# is_as_ever: the answer is whole
is_as_ever() {
    [ "$status" -eq "$ordinary" ] && cmp -s "$work/out" "$work/ordinary" && [ ! -s "$work/err" ]
}

# wrote_nothing: not a byte went to standard output
wrote_nothing() {
    [ ! -s "$work/out" ]
}

# is_bounded: the answer is whole, or memory ran out, or the program was not loaded: its loader or the system said so
is_bounded() {
    is_as_ever && return
    wrote_nothing && case $status in
    9) nines=$((nines + 1)); [ ! -s "$work/err" ] ;;
    126 | 127 | 137 | 139) unloaded=$((unloaded + 1)); [ "$1" -le 8192 ] ;;
    *) false ;;
    esac
}

# has_stack: the answer is whole, or the stack is below 256 KiB, and the system ended the run before its first byte
has_stack() {
    is_as_ever || { [ "$1" -lt 256 ] && wrote_nothing && [ "$status" -ge 126 ]; }
}

# notes WHAT TEST..: notes one run, for which the test has to hold
notes() {
    what=$1
    shift
    runs=$((runs + 1))
    if ! "$@"; then
        failed=$((failed + 1))
        echo "edfvd $what: status $status, $(wc -c <"$work/out") bytes written"
        head -n 2 "$work/err"
    fi
}

# limits WORDS..: both limits, in steps of KiB
limits() {
    # No words are the usage line, which needs no file and no more memory than others.
    [ $# -gt 0 ] || return 0
    bounded "$program" "$@" >"$work/ordinary"
    ordinary=$?
    nines=0
    unloaded=0
    for size in 1024 2048 3072 4096 5120 6144 7168 8192 9216 10240 12288 16384 32768 65536; do
        limited v "$size" "$@"
        notes "$* in $size KiB of address space" is_bounded "$size"
    done
    for size in 16 32 64 128 192 256 512 8192; do
        limited s "$size" "$@"
        notes "$* with $size KiB of stack" has_stack "$size"
    done
    echo "edfvd $*: not loaded $unloaded times, out of memory $nines times"
}

for_examples limits
# A text of 6 MB, for which there is no memory in most of these sizes.
printf 'event,tick,length,task,job,how\nidle,0,2000000,,,\n' >"$work/long.csv"
limits chart overrun/tasks.toml "$work/long.csv"
[ "$nines" -gt 0 ] || failed=$((failed + 1))

# A limit on the blocks of 512 bytes that the output file may have: a signal ends the run when the limit is reached. If the signal is
# ignored, the write fails, and the status is 8.
printf 'event,tick,length,task,job,how\nidle,0,20000,,,\n' >"$work/idle.csv"
bounded "$program" chart overrun/tasks.toml "$work/idle.csv" >"$work/ordinary"
# is_cut STATUS: the run had this status, and wrote a front of the text
is_cut() {
    written=$(wc -c <"$work/out")
    [ "$status" -eq "$1" ] && [ "$written" -gt 0 ] && [ "$written" -lt "$(wc -c <"$work/ordinary")" ] &&
        head -c "$written" "$work/ordinary" | cmp -s - "$work/out"
}
for blocks in 1 8 40; do
    limited f "$blocks" chart overrun/tasks.toml "$work/idle.csv"
    notes "chart into a file of at most $blocks blocks" is_cut 153
    trap '' XFSZ
    limited f "$blocks" chart overrun/tasks.toml "$work/idle.csv"
    notes "chart into a file of at most $blocks blocks, with the signal ignored" is_cut 8
    trap - XFSZ
done

# A limit on threads. The system counts all threads of a user, and those of root it does not limit. So root runs the program as a user
# who has no process; for anyone else the threads that the user has already are added to the limit.
threads=0
stranger=
if [ "$(id -u)" -eq 0 ]; then
    stranger='setpriv --reuid=60606 --regid=60606 --clear-groups --inh-caps=-all'
else
    threads=$(ps -L -u "$(id -u)" -o lwp= 2>/dev/null | wc -l)
fi

# crowded THREADS COMMAND..: the command, in a process that with its own threads may have this many
crowded() {
    allowed=$((threads + $1))
    shift
    # shellcheck disable=SC2086
    bounded $stranger prlimit "--nproc=$allowed" "$@"
}

# crowds WORDS..: a command with threads, which is to give the whole answer with as few of them as the system allows
crowds() {
    (cd "$work/all" && bounded ./program "$@") >"$work/ordinary"
    ordinary=$?
    for allowed in 1 2 3 4 5 6 8 12 16; do
        (cd "$work/all" && crowded "$allowed" ./program "$@") >"$work/out" 2>"$work/err"
        status=$?
        notes "$* where at most $allowed threads can be" is_as_ever
    done
}

# The files that another user is to read stand in a folder for all.
chmod 755 "$work"
mkdir -m 755 "$work/all"
cp "$program" "$work/all/program"
cp -R overrun live several "$work/all"
chmod -R a+rX "$work/all"
if crowded 1 sh -c '(:)' 2>"$work/err" || ! crowded 2 true 2>"$work/err"; then
    echo "limits: no limit on threads, since this system sets none here"
else
    crowds run overrun/tasks.toml overrun/work.csv 12
    crowds soak 7 8 20000
    crowds live live/tasks.toml 10
    crowds runall several/tasks.toml several/work.csv 5 2
    crowds accept 1 200 8
fi
ends limits
