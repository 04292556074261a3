#!/bin/sh
# shellcheck disable=SC2016
# Counts the instructions of the program, of an earlier one if there is one, and of the plain programs in Rust of this folder, on the
# same files, by `valgrind --tool=callgrind`, and writes them as a table of Markdown. The figures of a row, a record or a tick are the
# difference of two calls, divided by the rows, records or ticks between. The script fails if a call writes nothing, or if the program
# writes another text than the plain one, except for `live`, of which many texts are right. With `mend` the table goes into README.md,
# unless the script fails. EARLIER is the file of an earlier program. PROGRAM=FILE measures another built program.
# usage: beside.sh [mend] [EARLIER]
. "$(dirname -- "$0")/../tools/usage.sh"
takes 0 2 "$@"
mend=
[ "${1:-}" != mend ] || { mend=mend && shift; }
takes 0 1 "$@"
earlier=
if [ $# -eq 1 ]; then
    earlier=$(readlink -f -- "$1") || exit 1
    [ -x "$earlier" ] || wrong_words
fi
cd "$(dirname -- "$0")" || exit 1
for command in valgrind rustc; do
    if ! command -v "$command" >/dev/null 2>&1; then
        echo "beside: skipped, there is no $command"
        exit 0
    fi
done
work=$(mktemp -d) || exit 1
trap 'rm -rf "$work"' EXIT
trap 'exit 1' HUP INT TERM
[ -n "${PROGRAM:-}" ] || ../edfvd check ../examples/control/tasks.toml >"$work/out" || exit 1
program=${PROGRAM:-$(../prebuilt/program.sh)} || exit 1
for name in plain demand accept; do
    rustc -O --edition 2021 -o "$work/$name" "$name.rs" || exit 1
done
failed=0
. ./workloads.sh
. ./sets.sh

# count OF WORDS..: the instructions of the program, of the earlier one or of a plain one, whose text goes to a file
count() {
    of=$1
    shift
    case $of:$1 in
    plain:demand | plain:accept) of=$work/$1 && shift ;;
    plain:*) of=$work/plain ;;
    esac
    valgrind --tool=callgrind --callgrind-out-file=/dev/null "$of" "$@" 2>&1 >"$work/text" | sed -n 's/.*Collected : //p'
}

# row NAME FIRST SECOND BETWEEN WORDS..: writes a row of the table. With FIRST - it is of the whole call. Otherwise @ in a word stands
# for FIRST and for SECOND, and the row is of one of BETWEEN rows, records or ticks.
row() {
    name=$1 first=$2 second=$3 between=$4
    shift 4
    for of in ${earlier:+"$earlier"} "$program" plain; do
        [ ! -e "$work/text" ] || mv "$work/text" "$work/text.before"
        if [ "$first" = - ]; then
            count "$of" "$@"
        else
            # shellcheck disable=SC2046
            least=$(count "$of" $(printf '%s ' "$@" | sed "s/@/$first/g"))
            # shellcheck disable=SC2046
            most=$(count "$of" $(printf '%s ' "$@" | sed "s/@/$second/g"))
            echo "$(((most - least) / between))"
        fi
    done >"$work/counts"
    # The last two texts are those of the program and of the plain one.
    if [ ! -s "$work/text.before" ] || [ ! -s "$work/text" ] || { [ "$1" != live ] && ! cmp -s "$work/text.before" "$work/text"; }; then
        echo "beside: $name: the texts differ, or are empty" >&2
        failed=1
    fi
    awk -v name="$name" '
        function short(n) { return n < 1000 ? n : n < 10000 ? sprintf("%d,%03d", n / 1000, n % 1000) : n < 1000000 ? sprintf("%.0f,000", n / 1000) : sprintf(n < 1e7 ? "%.2f million" : n < 1e8 ? "%.1f million" : "%.0f million", n / 1e6) }
        { counts[NR] = $1; cells = cells " " short($1) " |" }
        END { printf "| %s |%s %.2f |\n", name, cells, counts[NR - 1] / counts[NR] }' "$work/counts"
}

turns_set
live_set
wide_set
long_names_set
demand_sets
two_tasks
for records in 20000 40000; do
    turns 1 $records >"$work/turns.$records.csv"
    idles 1 $records >"$work/idles.$records.csv"
    two_rows $((records * 15)) >"$work/two.$records.csv"
done
for rows in 30000 50000 100000; do head -n $((rows + 1)) "$work/crowd.csv" >"$work/crowd.$rows.csv"; done
"$program" run "$work/avionics.toml" "$work/avionics.csv" 1000000 >"$work/packed.csv"

# figures: the table
figures() {
    echo "| |${earlier:+ before |} the program | plain Rust | times |"
    echo "|---|${earlier:+---|}---|---|---|"
    row '`check` of the control set' - - - check ../examples/control/tasks.toml
    row '`check` of 128 tasks with long names' - - - check "$work/tasks.toml"
    row '`stretch` of 128 tasks' - - - stretch "$work/wide.toml"
    row '`partition` of 128 tasks on 16 processors' - - - partition "$work/wide.toml" 16
    row '`accept 1 1000 32`' - - - accept 1 1000 32
    row '`judge`, a record of 8 tasks in turn' 20000 40000 20000 judge "$work/turns.toml" "$work/turns.@.csv"
    row '`judge`, an idle record' 20000 40000 20000 judge "$work/turns.toml" "$work/idles.@.csv"
    row '`judge`, a record with half a million pending jobs' 20000 40000 300000 judge "$work/two.toml" "$work/two.@.csv" 1 1
    row '`migrate`, a record of 8 tasks in turn' 20000 40000 20000 migrate "$work/turns.toml" "$work/turns.@.csv"
    row '`judge` of the avionics run, 1,701 records' - - - judge "$work/avionics.toml" "$work/packed.csv"
    row '`chart` of the avionics run' - - - chart "$work/avionics.toml" "$work/packed.csv"
    row 'a row of the work file' 50000 100000 50000 run "$work/crowd.toml" "$work/crowd.@.csv" 1
    row '`run` of 128 tasks in turn, a tick with its release' 10000 20000 10000 run "$work/crowd.toml" "$work/crowd.30000.csv" @
    row '`live` of 32 tasks, a tick' 2000 6000 4000 live "$work/live.toml" @
    row '`demand` of 128 tasks whose periods divide 500,000' - - - demand "$work/wide.csv"
    row '`demand` of 128 tasks, 396,876 jobs' - - - demand "$work/dense.csv"
    row '`demand`, a counterexample of 500,000 ticks, 128 releases' - - - demand "$work/past.csv"
    row '`demand`, a counterexample of 500,000 ticks, 396,876 releases' - - - demand "$work/dense_past.csv"
}

figures >"$work/figures"
if [ -z "$mend" ] || [ $failed -ne 0 ]; then
    cat "$work/figures"
    exit $failed
fi
awk -v figures="$work/figures" '
    /^<!-- end of the figures -->/ { inside = 0 }
    !inside
    /^<!-- the figures of bench\/beside.sh -->/ { inside = 1; print ""; while ((getline line < figures) > 0) print line; print "" }
' README.md >"$work/page" && cat "$work/page" >README.md
