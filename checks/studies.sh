#!/bin/sh
# Tries the scripts of tools/study: a study is cut, worked out and added up, a job is killed in the middle of a part, what is left is
# resumed, and the sum is what one call for all sets writes, byte for byte; a lost part and a doubled one are noticed. By study.py
# alone, and by GNU parallel where it is there. With the word slurm by Slurm, too, on this machine alone, which only root can.
# - The study is the sets of 8 tasks from 1 to 10,000 in ten parts. One part is made to wait, and its job is killed with SIGKILL. Then the
#   sum is refused with the missing numbers, no part is half written, and the same call again computes exactly what is left.
# - By study.py in two shares: also a part that is there twice, one of another number of tasks, a table cut short, a part that is gone, a
#   program that fails and none at all: each is refused and named.
# - By slurm.sh with a stand-in for sbatch: with nothing left it submits nothing, and a sum that fails leaves the folder as it was.
# - With real Slurm engine.sh starts munged, slurmctld and slurmd in a folder and with a key of their own. In an array of three jobs
#   `scancel --signal=KILL` kills the one that waits: the job that adds up is FAILED, and after the same call again COMPLETED. So tried on
#   Debian 12 with GNU parallel 20221122, Slurm 22.05.8 and gnuplot 5.4.4, with a look at the picture of tables of 4 to 32 tasks.
# usage: studies.sh [slurm]
. "$(dirname -- "$0")/../tools/usage.sh"
takes 0 1 "$@"
[ "${1-slurm}" = slurm ] || wrong_words
cd "$(dirname -- "$0")/../examples" || exit 1
here=$PWD
if ! python3 -c 'import sys; sys.exit(sys.version_info < (3, 9))' 2>/dev/null; then
    echo "studies: skipped, there is no python3 of version 3.9 or later"
    exit 0
fi
. ../checks/expect.sh
if [ "${1:-}" = slurm ] && [ -z "${SLURM_CONF:-}" ]; then
    PROGRAM=$program exec ../tools/study/engine.sh ../checks/studies.sh slurm
fi
sets=${SETS:-10000}
size=$((sets / 10))
# The part with this number is held up once, so that it can be killed.
held=$((4 * size + 1))
cat >"$work/held.sh" <<END
#!/bin/sh
if [ "\$2" = $held ] && mkdir "\$STUDY/held" 2>/dev/null; then
    echo "\$PPID" >"\$STUDY/held/job"
    echo "\${SLURM_ARRAY_JOB_ID:-}_\${SLURM_ARRAY_TASK_ID:-}" >"\$STUDY/held/task"
    echo \$\$ >"\$STUDY/held/call"
    exec sleep 60
fi
exec "$program" "\$@"
END
chmod +x "$work/held.sh"
bounded "$program" accept 1 "$sets" 8 >"$work/uncut.txt"

# wants STATUS TEXT SAYS COMMAND..: the command gives this status and text, and standard error has the words SAYS
wants() {
    want=$1
    text=$2
    says=$3
    shift 3
    "$@" >"$work/out" 2>"$work/err"
    judge "$want" $? "$text" "$*"
    if [ -n "$says" ] && ! grep -qF -e "$says" "$work/err" || [ -z "$says" ] && [ -s "$work/err" ]; then
        failed=$((failed + 1))
        echo "$*: standard error has not '$says':"
        cat "$work/err"
    fi
}

# begins NAME: a new study of this name
begins() {
    STUDY=$work/$1
    export STUDY
    EDFVD=$work/held.sh
    export EDFVD
    wants 0 "$work/empty" '' python3 -B ../tools/study/study.py new "$STUDY" 1 "$sets" 8 "$size"
}

# waits: until a part is held up
waits() {
    times=0
    until [ -s "$STUDY/held/call" ] || [ "$times" -ge 600 ]; do
        times=$((times + 1))
        sleep 0.1
    done
}

# kills: ends the job that is held up, as a machine would that goes down
kills() {
    waits
    kill -9 "$(cat "$STUDY/held/job")" "$(cat "$STUDY/held/call")"
}

# By hand: shares of two jobs, of which one is killed in the middle.
begins by_hand
wants 1 "$work/empty" "no part has the numbers 1 to $sets" python3 -B ../tools/study/study.py sum "$STUDY"
kills 2>/dev/null &
python3 -B ../tools/study/study.py share "$STUDY" 0 2 2>/dev/null && failed=$((failed + 1))
wait
wants 0 "$work/empty" '' python3 -B ../tools/study/study.py share "$STUDY" 1 2
wants 1 "$work/empty" "no part has the numbers $held to $((5 * size))" python3 -B ../tools/study/study.py sum "$STUDY"
printf '4\n6\n8\n' >"$work/left.txt"
wants 0 "$work/left.txt" '' python3 -B ../tools/study/study.py left "$STUDY"
wants 0 "$work/empty" '' python3 -B ../tools/study/study.py share "$STUDY" 0 1
wants 0 "$work/uncut.txt" '' python3 -B ../tools/study/study.py sum "$STUDY"
# A part twice, a part of other sets, a table that is cut short, a part that is lost.
cp "$STUDY/parts/3.txt" "$STUDY/parts/copy.txt"
wants 1 "$work/empty" "accept $((3 * size + 1)) $size 8 begins before $held" python3 -B ../tools/study/study.py sum "$STUDY"
sed '1s/ 8$/ 9/' "$STUDY/parts/3.txt" >"$STUDY/parts/copy.txt"
wants 1 "$work/empty" 'is of another number of tasks' python3 -B ../tools/study/study.py sum "$STUDY"
sed '$d' "$STUDY/parts/3.txt" >"$STUDY/parts/copy.txt"
wants 1 "$work/empty" 'copy.txt is no part' python3 -B ../tools/study/study.py sum "$STUDY"
rm "$STUDY/parts/copy.txt" "$STUDY/parts/9.txt"
wants 1 "$work/empty" "no part has the numbers $((9 * size + 1)) to $sets" python3 -B ../tools/study/study.py sum "$STUDY"
# Without the program nothing is begun, and the remedy is named.
missing="there is no program $work/none: \`install.sh PREFIX\` puts edfvd to PREFIX/bin"
wants 1 "$work/empty" "$missing" env EDFVD="$work/none" python3 -B ../tools/study/study.py part "$STUDY" 9
wants 1 "$work/empty" "$missing" env EDFVD="$work/none" ../tools/study/parallel.sh "$STUDY"
[ ! -e "$STUDY/jobs.txt" ] || failed=$((failed + 1))
# A program that fails leaves no part.
wants 1 "$work/empty" 'status 1' env EDFVD=false python3 -B ../tools/study/study.py part "$STUDY" 9
wants 1 "$work/empty" "no part has the numbers $((9 * size + 1)) to $sets" python3 -B ../tools/study/study.py sum "$STUDY"
wants 0 "$work/empty" '' python3 -B ../tools/study/study.py part "$STUDY" 9
# With nothing left the table is written, by neither parallel nor Slurm; a sum that fails leaves nothing, and the table as it was.
mkdir "$work/tools"
printf '#!/bin/sh\necho "$*" >>"%s/handed.txt"\necho 4713\n' "$work" >"$work/tools/sbatch"
chmod +x "$work/tools/sbatch"
wants 0 "$work/empty" 'nothing is left, so nothing is handed in' env PATH="$work/tools:$PATH" ../tools/study/slurm.sh "$STUDY" 3
cp "$STUDY/table.txt" "$work/out"
judge 0 0 "$work/uncut.txt" 'slurm.sh with nothing left, its table'
wants 0 "$work/uncut.txt" '' ../tools/study/parallel.sh "$STUDY"
cp "$STUDY/parts/3.txt" "$STUDY/parts/copy.txt"
ls -A "$STUDY" >"$work/folder.txt"
wants 1 "$work/empty" 'begins before' ../tools/study/parallel.sh "$STUDY"
wants 1 "$work/empty" 'begins before' sh ../tools/study/sum.sbatch ../tools/study "$STUDY"
ls -A "$STUDY" >"$work/out"
judge 0 0 "$work/folder.txt" 'what a failed sum leaves'
cp "$STUDY/table.txt" "$work/out"
judge 0 0 "$work/uncut.txt" 'the table after a failed sum'
[ ! -e "$work/handed.txt" ] || failed=$((failed + 1))
# With parts left an array and the job that adds up are handed in.
rm "$STUDY/parts/copy.txt" "$STUDY/parts/9.txt"
wants 0 "$(says 4713)" '' env PATH="$work/tools:$PATH" ../tools/study/slurm.sh "$STUDY" 3
sed -n 's/.*\(--array=[^ ]*\|--dependency=[^ ]*\).*/\1/p' "$work/handed.txt" >"$work/out"
judge 0 0 "$(says '--array=0-2
--dependency=afterany:4713')" 'what slurm.sh hands in'
# Slurm is given the folder's name so that no sign of it is read as a field.
mkdir "$work/100%A" && cp -R "$STUDY" "$work/100%A/a b" && : >"$work/handed.txt"
wants 0 "$(says 4713)" '' env PATH="$work/tools:$PATH" ../tools/study/slurm.sh "$work/100%A/a b" 3
sed -n 's|.*--output='"$work"'/\([^-]*txt\) .*|\1|p' "$work/handed.txt" >"$work/out"
judge 0 0 "$(says '100%%A/a b/jobs/%A_%a.txt
100%%A/a b/jobs/%A.txt')" 'the names that slurm.sh hands in'
cp -R "$STUDY" "$work/back\\slash"
wants 1 "$work/empty" 'Slurm takes no backslash' env PATH="$work/tools:$PATH" ../tools/study/slurm.sh "$work/back\\slash" 3
wants 1 "$work/empty" 'has another study' python3 -B ../tools/study/study.py new "$STUDY" 1 "$sets" 8 1
wants 1 "$work/empty" 'are 2^64 or more together' python3 -B ../tools/study/study.py new "$work/none" 18446744073709551615 1 8 1

# any_name NAME: a study in a folder of this name is worked out there, and the name runs nothing
any_name() {
    mkdir "$work/$1" && cd "$work/$1" || exit 1
    bounded "$program" accept 1 4 8 >"$work/four.txt"
    python3 -B "$here/../tools/study/study.py" new "$1" 1 4 8 1
    EDFVD=$program "$here/../tools/study/parallel.sh" "$1" 2 >"$work/out" 2>"$work/err"
    judge 0 $? "$work/four.txt" "parallel.sh of a study in the folder $1"
    printf '%s\n' jobs.txt parts study.txt table.txt >"$work/wanted.txt"
    ls "$1" >"$work/out"
    judge 0 0 "$work/wanted.txt" "what parallel.sh writes to the folder $1"
    says "$1" >/dev/null
    ls >"$work/out"
    judge 0 0 "$work/line" "what parallel.sh writes beside the folder $1"
    cd "$here" || exit 1
}

if command -v parallel >/dev/null 2>&1; then
    begins parallel
    kills 2>/dev/null &
    ../tools/study/parallel.sh "$STUDY" 3 >"$work/out" 2>/dev/null
    judge 1 $? "$work/empty" 'parallel.sh, a job of which is killed'
    wait
    ../tools/study/parallel.sh "$STUDY" 3 >"$work/out" 2>/dev/null
    judge 0 $? "$work/uncut.txt" 'parallel.sh, resumed'
    judge 0 0 "$STUDY/table.txt" 'parallel.sh, its table'
    rm "$STUDY/table.txt"
    ../tools/study/parallel.sh "$STUDY" >"$work/out" 2>/dev/null
    judge 0 $? "$work/uncut.txt" 'parallel.sh, with nothing left'
    for name in ';touch touched;#' '{} {.} {#}' '{= open(F, ">touched") =}' '`touch touched`$(touch touched)' "'\" a"; do
        any_name "$name"
    done
else
    echo 'studies: parallel.sh is skipped, there is no GNU parallel'
fi

# ends_behind JOB: waits for the job that adds up, a minute at most, and notes whether it ended so
ends_behind() {
    times=0
    while state=$(scontrol show job "$1" | sed -n 's/.*JobState=\([A-Z]*\).*/\1/p'); do
        case $state in
        PENDING | RUNNING | COMPLETING) [ "$times" -lt 600 ] || break ;;
        *) break ;;
        esac
        times=$((times + 1))
        sleep 0.1
    done
    echo "$state" >"$work/out"
}

# by_slurm: the same by Slurm
by_slurm() {
    begins slurm
    job=$(../tools/study/slurm.sh "$STUDY" 3) || failed=$((failed + 1))
    waits
    scancel --signal=KILL "$(cat "$STUDY/held/task")"
    ends_behind "$job"
    judge 0 0 "$(says FAILED)" 'the sum, a job of which is killed'
    [ -e "$STUDY/table.txt" ] && failed=$((failed + 1))
    grep -qF "no part has the numbers $held to $((5 * size))" "$STUDY/jobs/$job.txt" || failed=$((failed + 1))
    job=$(../tools/study/slurm.sh "$STUDY" 3) || failed=$((failed + 1))
    ends_behind "$job"
    judge 0 0 "$(says COMPLETED)" 'the sum, resumed'
    cp "$STUDY/table.txt" "$work/out"
    judge 0 0 "$work/uncut.txt" 'slurm.sh, its table'
}

# A table at each per cent, beside one by model.py; the picture of two such tables; and the lines of STUDIES.md for sets of one's own.
finer_and_own() {
    EDFVD=$program
    export EDFVD
    PYTHONPATH=../checks python3 -B - >"$work/finer.txt" <<'END'
import model
stretches = [model.stretch(model.make(number, 4, 0)[0]) for number in range(1, 21)]
counts = [(percent, sum(stretch >= percent for stretch in stretches)) for percent in range(100, 1001)]
print(*(f'{percent} {count}' for percent, count in counts if count), sep='\n')
print(next(percent for percent, count in counts if not count), 0)
END
    wants 0 "$work/finer.txt" '' python3 -B ../tools/study/finer.py 1 20 4
    printf '#!/bin/sh\n[ "$1" = accept ] && exec echo 100 19\nexec "%s" "$@"\n' "$program" >"$work/wrong.sh"
    chmod +x "$work/wrong.sh"
    wants 1 "$work/empty" '20 sets at 100, accept counts 19' env EDFVD="$work/wrong.sh" python3 -B ../tools/study/finer.py 1 20 4
    wants 1 "$work/empty" 'false stretch /dev/stdin: status 1' env EDFVD=false python3 -B ../tools/study/finer.py 1 20 4
    wants 2 "$work/empty" 'usage: finer.py' python3 -B ../tools/study/finer.py 1 20
    if command -v gnuplot >/dev/null 2>&1; then
        bounded "$program" accept 1 20 8 >"$work/tenths.txt"
        last=$(awk '$2 == 0 { print $1; exit }' "$work/tenths.txt")
        gnuplot -e "tables = '$work/finer.txt $work/tenths.txt'; tasks = '4 8'; picture = '$work/accept.svg'" \
            ../tools/study/accept.gp -e 'print sprintf("%d", last)' 2>"$work/out"
        judge 0 $? "$(says "$( (tail -n 1 "$work/finer.txt" | cut -d ' ' -f 1; echo "$last") | sort -n | tail -n 1)")" 'accept.gp'
        for tasks in 4 8; do
            grep -q ">$tasks tasks<" "$work/accept.svg" || failed=$((failed + 1))
        done
    else
        echo 'studies: accept.gp is skipped, there is no gnuplot'
    fi

    mkdir "$work/bin" && ln -s "$program" "$work/bin/edfvd"
    awk '/^```python$/ { lines = 1; next } /^```/ { lines = 0 } lines' ../docs/STUDIES.md >"$work/own.py"
    awk '/^```python$/ { marks = 1 } marks && /^```$/ { marks++; next } marks == 3 && !/^\$/' ../docs/STUDIES.md >"$work/own.txt"
    wants 0 "$work/own.txt" '' env PATH="$work/bin:$PATH" PYTHONPATH="$PWD/../tools" python3 -B "$work/own.py"
    grep -q '^100   0 |$' "$work/own.txt" || failed=$((failed + 1))
}
# The picture of acceptance.py gets a name that gnuplot would read as its own language. A stand-in for the package admits every set.
picture_of_any_name() {
    mkdir "$work/stand-in" "$work/pictures"
    printf 'class Task:\n    def __init__(self, *words): pass\n\ndef check(tasks):\n    check.rule = 1\n    return check\n' >"$work/stand-in/edfvd.py"
    printf 'raise ImportError\n' >"$work/stand-in/matplotlib.py"
    cd "$work/pictures" || exit 1
    for picture in 'a"; system "touch touched"; "b.svg' 'a`touch touched`.svg' "a'@b.svg" 'a
b.svg'; do
        PYTHONPATH=$work/stand-in python3 -B "$here/../python/examples/acceptance.py" 10 "$picture" >/dev/null 2>"$work/err"
        status=$?
        ls -N >"$work/out"
        judge 0 "$status" "$(says "$picture")" "acceptance.py with the picture $picture"
        grep -q '</svg>' "$picture" || failed=$((failed + 1))
        rm -f ./*
    done
    cd "$here" || exit 1
}
if command -v gnuplot >/dev/null 2>&1 && python3 -c 'import sys; sys.exit(sys.version_info < (3, 11))'; then picture_of_any_name; fi

if python3 -c 'import tomllib' 2>/dev/null; then
    finer_and_own
else
    echo 'studies: finer.py and sets of one'"'"'s own are skipped, there is no python3 of version 3.11 or later'
fi

[ "${1:-}" != slurm ] || by_slurm
ends studies
