#!/bin/sh
# Tries record/record.sh and the recipe of docs/RECORDING.md with a stand-in for trace-cmd, and files of a new folder in the place
# of the kernel's: the text is the one that trace-cmd reports, and what was set is put back, even if the script is ended in the
# middle. The C of the page compiles. No built program is needed, and nothing is recorded.
# usage: records.sh
. "$(dirname -- "$0")/../tools/usage.sh"
takes 0 0 "$@"
cd "$(dirname -- "$0")/../examples" || exit 1
here=$PWD
work=$(mktemp -d) || exit 1
trap 'rm -rf "$work"' EXIT
trap 'exit 1' HUP INT TERM
failed=0

TRACING=$work/tracing
RT_LIMIT=$work/limit
# What trace-cmd changes.
CHANGED="$TRACING/current_tracer $TRACING/trace_clock $TRACING/tracing_cpumask $TRACING/tracing_on
    $TRACING/events/sched/sched_switch/enable $TRACING/events/sched/sched_waking/enable"
# The words of trace-cmd's last call that runs a program.
WORDS=$work/words
export TRACING RT_LIMIT CHANGED WORDS
mkdir -p "$TRACING/events/sched/sched_switch" "$TRACING/events/sched/sched_waking" "$work/tools" "$work/folder"
: >"$TRACING/trace_marker"

# sets VALUES..: the limit and the files that trace-cmd changes have these values
sets() {
    for file in $RT_LIMIT $CHANGED; do
        echo "$1" >"$file"
        shift
    done
}

# are VALUES..: whether they have these values
are() {
    # shellcheck disable=SC2086
    [ "$(cat $RT_LIMIT $CHANGED | tr '\n' ' ')" = "$* " ]
}

# checks WHAT COMMAND..: the command has to succeed
checks() {
    what=$1
    shift
    if ! "$@"; then
        failed=$((failed + 1))
        echo "records: $what"
    fi
}

# The stand-in stops where it has changed what trace-cmd changes, if it is to be ended there.
cat >"$work/tools/trace-cmd" <<'END'
#!/bin/sh
case $1 in
record) [ -n "${RECORDS:-}" ] || exit 1 ;;
extract) exit ;;
report) exec cat "$REPORT" ;;
esac
echo "$@" >"$WORDS"
for file in $CHANGED; do echo changed >"$file"; done
echo 'fifo: a stand-in' >&2
[ -z "${BEGUN:-}" ] || { : >"$BEGUN"; exec sleep 60; }
END
printf '#!/bin/sh\n' >"$work/tools/cc"
printf '#!/bin/sh\nshift\nexec python3 -B "%s/../tools/explain.py" "$@"\n' "$here" >"$work/tools/edfvd"
chmod +x "$work/tools/trace-cmd" "$work/tools/cc" "$work/tools/edfvd"
real_path=$PATH
PATH=$work/tools:$PATH
cd "$work/folder" || exit 1

# The name of the text is taken from the caller's folder. Of the clock's values the one in brackets is put back.
REPORT=$here/record/rules.txt
export REPORT
for records in '' yes; do
    sets 950000 nop '[local] global mono' f 1 0 0
    RECORDS=$records "$here/../tools/record/record.sh" "text$records.txt" >"$work/out" || failed=$((failed + 1))
    checks "record.sh, with record $records: another text" cmp "$REPORT" "text$records.txt"
    checks "record.sh, with record $records: other settings" are 950000 nop local f 1 0 0
done
# runs RULE WORDS PRIORITY: with this rule the program has these words, and the text begins with the thread of this priority
runs() {
    sets 950000 nop '[local] global mono' f 1 0 0
    sed "s/==> \(.*\) \[98\]\$/==> \1 [$3]/" "$REPORT.kept" >"$REPORT"
    LIBRARY=$work/library "$here/../tools/record/record.sh" "$1.txt" ${1:+"$1"} >"$work/out"
    checks "record.sh $1: status $?" [ $? -eq 0 ]
    checks "record.sh $1: another program" grep -q "/program $2\$" "$WORDS"
    checks "record.sh $1: another text" cmp "$REPORT" "$1.txt"
    checks "record.sh $1: other settings" are 950000 nop local f 1 0 0
}
REPORT=$work/report
cp "$here/record/rules.txt" "$REPORT.kept"
: >"$work/library"
inputs='../../examples/record/tasks.toml ../../examples/record/work.csv 40 10000 1'
runs '' "$inputs" 98
runs plain "$inputs plain" 98
runs keep "$inputs keep" 98
runs posix '10000 1' 97
runs greedy '10000 1 greedy' 97
LIBRARY=$work/none "$here/../tools/record/record.sh" none.txt posix 2>"$work/err"
checks "record.sh posix without the library: status $?" [ $? -eq 1 ]
checks 'record.sh posix without the library: another line' [ "$(cat "$work/err")" = 'record.sh: c/build.sh has not built the library' ]
checks 'record.sh posix without the library: there is a text' [ ! -e none.txt ]
REPORT=$here/record/rules.txt

sets 950000 nop '[local] global mono' f 1 0 0
BEGUN=$work/begun "$here/../tools/record/record.sh" ended.txt >"$work/out" &
times=0
until [ -e "$work/begun" ] || [ "$times" -ge 100 ]; do
    times=$((times + 1))
    sleep 0.1
done
checks 'record.sh, in the middle: other settings' are -1 changed changed changed changed changed changed
kill $!
wait $!
checks "record.sh, ended in the middle: status $?" [ $? -eq 1 ]
checks 'record.sh, ended in the middle: other settings' are 950000 nop local f 1 0 0
checks 'record.sh, ended in the middle: there is a text' [ ! -e ended.txt ]

# block LANGUAGE: the first block of the page in this language
block() {
    awk -v fence="\`\`\`$1" '$0 == fence && !done { inside = 1; next } /^```$/ && inside { inside = 0; done = 1 } inside' \
        "$here/../docs/RECORDING.md"
}

# The recipe, on the recording that was written by hand: the trace of it, judged.
if python3 -c 'import tomllib' 2>/dev/null; then
    REPORT=$here/record/by_hand.txt
    cp "$here/control/tasks.toml" .
    ln -s "$here/../tools" tools
    sets 950000 nop local f 1 0 0
    block sh | sed "s,=/sys/kernel/tracing\$,=$TRACING,; s,=/proc/sys/.*,=$RT_LIMIT," >"$work/recipe"
    sh -eu "$work/recipe" >"$work/out" 2>"$work/err"
    checks "the recipe: status $?" [ $? -eq 0 ]
    checks 'the recipe: another trace' cmp "$here/record/by_hand.csv" trace.csv
    checks 'the recipe: another verdict' cmp "$here/judged/legal.txt" "$work/out"
    checks 'the recipe: other settings' are 950000 changed local f 1 changed changed
    checks 'the recipe: events are left on' [ "$(cat "$TRACING/events/enable")" = 0 ]
else
    echo 'records: the recipe is skipped, there is no python3 of version 3.11 or later'
fi

# The page's part of a program is one.
PATH=$real_path
if [ "$(uname)" = Linux ] && command -v cc >/dev/null 2>&1; then
    block c >"$work/markers.c"
    checks 'the C of the page is refused' cc -c -Wall -Wextra -Werror -o "$work/markers.o" "$work/markers.c"
fi
echo "records: $failed failed"
[ "$failed" -eq 0 ]
