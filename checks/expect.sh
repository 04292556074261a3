# Sourced in examples/ by each script that runs the built program: runs it, and compares what it does with what is expected.
edfvd=$PWD/../edfvd
# The program itself. It is proved and built where neither the built nor the prebuilt one is of the sources that are here.
[ -n "${PROGRAM:-}" ] || "$edfvd" >/dev/null
program=${PROGRAM:-$("$PWD/../prebuilt/program.sh")}
if ! [ -x "$program" ]; then
    echo "there is no program $program" >&2
    exit 1
fi
work=$(mktemp -d) || exit 1
trap 'rm -rf "$work"' EXIT
trap 'exit 1' HUP INT TERM
: >"$work/empty"
runs=0
failed=0

# bounded COMMAND..: no run takes longer than a minute
bounded() {
    timeout 60 "$@"
}

# judge WANTED STATUS TEXT WORDS: notes one run, whose output is in $work/out and must be that of the file TEXT
judge() {
    runs=$((runs + 1))
    if [ "$2" -ne "$1" ] || ! cmp -s "$work/out" "$3"; then
        failed=$((failed + 1))
        echo "edfvd $4: status $2, wanted $1; the text wanted (<) and written (>):"
        diff "$3" "$work/out" | head -n 10
    fi
}

# expect STATUS TEXT WORDS..: the words give this status, and the text of this file
expect() {
    want=$1
    text=$2
    shift 2
    bounded "$program" "$@" >"$work/out"
    judge "$want" $? "$text" "$*"
}

# says TEXT: a file with this one line
says() {
    printf '%s\n' "$1" >"$work/line"
    printf '%s\n' "$work/line"
}

# each LAST ACTION WORDS..: calls the function with each number from 1 to LAST before the words
each() {
    last=$1
    action=$2
    shift 2
    number=1
    while [ "$number" -le "${last:-0}" ]; do
        "$action" "$number" "$@"
        number=$((number + 1))
    done
}

# for_examples ACTION WORDS..: calls the function with these words, and then those of a run: of each command, refused and not
for_examples() {
    "$@" check control/tasks.toml
    "$@" check certified/outgrown.toml
    "$@" check refused/high_load.toml
    "$@" check refused/zero_period.toml
    "$@" check absent.toml
    "$@" run overrun/tasks.toml overrun/work.csv 12
    "$@" run overrun/tasks.toml absent.csv 12
    "$@" judge judged/tasks.toml judged/legal.csv
    "$@" judge judged/tasks.toml judged/late.csv 1 1
    "$@" chart overrun/tasks.toml overrun/run.txt
    "$@" report overrun/tasks.toml overrun/run.txt
    "$@" soak 7 8 20000
    "$@" migrate runs/tasks.toml runs/rows.csv
    "$@" live live/tasks.toml 10
    "$@" demand demand/within.csv
    "$@" demand demand/sensor.csv
    "$@" demand demand/refused.csv
    "$@" demand absent.csv
    "$@" partition several/tasks.toml 2
    "$@" partition several/tasks.toml 1
    "$@" runall several/tasks.toml several/work.csv 5 2
    "$@" runall several/tasks.toml absent.csv 5 2
    "$@" stretch control/tasks.toml
    "$@" stretch refused/low_load.toml
    "$@" accept 1 200 8
    "$@"
}

# half_served: a trace in which two tasks of period 1 release a job at each of 500,000 ticks, and have the ticks in turn
half_served() {
    awk 'BEGIN { print "event,tick,task,job,how"; for (t = 0; t < 500000; t++) {
        print "release," t ",a," t + 1 ",kept"; print "release," t ",b," t + 1 ",kept"
        print "tick," t "," (t % 2 ? "b" : "a") "," int(t / 2) + 1 ",done" } }'
}

# refuse SETTINGS WORDS..: runs the words with the library of refusals before the C library's; the status is in $status, the
# output in $work/out, and what the library reports in $work/err
refuse() {
    settings=$1
    shift
    # shellcheck disable=SC2086
    bounded env $settings LD_PRELOAD="$work/refusals.so" "$program" "$@" >"$work/out" 2>"$work/err"
    status=$?
}

# reported WORD: the number that the library reports for it
reported() {
    sed -n "s/^$1 //p" "$work/err"
}

# has_library: the library of refusals is made, where there is a C compiler
has_library() {
    command -v cc >/dev/null 2>&1 && { cc -O1 -shared -fPIC -o "$work/refusals.so" ../checks/refusals.c -ldl || exit 1; }
}

# ends NAME: says how many runs there were, and whether any failed
ends() {
    echo "$1: $runs runs, $failed failed"
    [ "$failed" -eq 0 ]
}
