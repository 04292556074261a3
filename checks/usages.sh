#!/bin/sh
# Calls each script of tools/ and checks/, and bounds of bench/: `--help` writes its usage, with status 0, and words that are none of its
# forms get its usage on standard error, with status 2; none do where it needs some. Each answers at once: no program is built,
# tried or recorded. A closed pipe and a full disk end it with one line. A script that is ended in the middle leaves no folder.
# tools/README.md names each tool, and examples/README.md each folder of inputs.
# usage: usages.sh
. "$(dirname -- "$0")/../tools/usage.sh"
takes 0 0 "$@"
cd "$(dirname -- "$0")/../examples" || exit 1
work=$(mktemp -d) || exit 1
trap 'rm -rf "$work"' EXIT
trap 'exit 1' HUP INT TERM
calls=0
failed=0
# A script that goes on to the program finds none.
PROGRAM=$work/none
export PROGRAM

# call SCRIPT WORDS..: within a minute; the status is in $work/status, standard error in $work/err
call() {
    case $1 in
    *.py) timeout 60 python3 -B "$@" ;;
    *) timeout 60 "$@" ;;
    esac 2>"$work/err"
    echo $? >"$work/status"
}

# notes WORDS TEST..: notes one call, for which the test has to hold
notes() {
    words=$1
    shift
    calls=$((calls + 1))
    if ! "$@"; then
        failed=$((failed + 1))
        echo "usages: $words: status $(cat "$work/status"), standard error:"
        head -n 5 "$work/err"
    fi
}

# has STATUS USAGE EMPTY: the call had this status, this file begins with the usage of the script, and that one is empty
has() {
    [ "$(cat "$work/status")" -eq "$1" ] && head -n 1 "$2" | grep -q "^usage: $name\( \|\$\)" && [ ! -s "$3" ]
}

# refuses SCRIPT WORDS..: the script refuses these words
refuses() {
    name=${1##*/}
    call "$@" >"$work/out"
    notes "$*" has 2 "$work/err" "$work/out"
}

# has_line: the call had a status of failure, and at most one line on standard error; of Python exactly one, with status 8
has_line() {
    case $name in
    *.py) [ "$(cat "$work/status")" -eq 8 ] && [ "$(wc -l <"$work/err")" -eq 1 ] ;;
    *) [ "$(wc -l <"$work/err")" -le 1 ] ;;
    esac
}

# takes_nothing SCRIPT WORDS..: standard output is a full disk, and a pipe whose reader has gone
takes_nothing() {
    name=${1##*/}
    if [ -w /dev/full ]; then
        call "$@" >/dev/full
        notes "$*, to a full disk" has_line
    fi
    { sleep 0.1; call "$@"; } | :
    notes "$*, to a closed pipe" has_line
}

# named PAGE WORDS: the page has to have these words
named() {
    if ! grep -qF -e "$2" "$1"; then
        failed=$((failed + 1))
        echo "usages: $1 does not name $2"
    fi
}

# scripts: those that can be called
scripts() {
    find ../tools ../checks ../bench/bounds.sh -name '*.sh' -perm -u+x | sort
    if python3 -c 'import tomllib' 2>/dev/null; then
        find ../tools ../checks ../bench/bounds.py -name '*.py' -exec grep -l "__name__ == '__main__'" {} + | sort
    else
        echo 'usages: those in Python are skipped, there is no python3 of version 3.11 or later' >&2
    fi
}
scripts >"$work/scripts"
while read -r script; do
    name=${script##*/}
    call "$script" --help >"$work/out"
    notes "$script --help" has 0 "$work/out" "$work/err"
    usage=$(sed 's/ \[--[a-z]*\]//;1q' "$work/out")
    refuses "$script" --wrong
    case $usage in
    *COMMAND..) ;;
    *) refuses "$script" 1 2 3 4 5 6 7 8 9 ;;
    esac
    case $usage in
    "usage: $name" | "usage: $name ["*) ;;
    *) refuses "$script" ;;
    esac
    takes_nothing "$script" --help
    case $script in
    ../tools/*) named ../tools/README.md "\`${script#../tools/}\`" ;;
    esac
done <"$work/scripts"
for folder in */; do
    named README.md "[${folder%/}](${folder%/})"
done

refuses ../bench/bounds.sh x
refuses ../checks/compare.sh x
refuses ../checks/explain.sh 1 ''
refuses ../checks/lasting.sh x
refuses ../checks/memcheck.sh race
refuses ../checks/mutate.sh 1 -1
refuses ../checks/night.sh x
refuses ../checks/outside.sh proves
refuses ../checks/second.sh 1 x
refuses ../checks/studies.sh slurms
refuses ../tools/record/record.sh text plan
refuses ../tools/study/slurm.sh study 0
refuses ../install.sh
for script in ../reproduce.sh ../prebuilt/compare.sh ../prebuilt/refresh.sh ../prebuilt/program.sh ../prebuilt/library.sh; do
    refuses "$script" 1 2
    refuses "$script" --wrong
done
if grep -q 'py$' "$work/scripts"; then
    refuses ../bench/bounds.py program plain x
    refuses ../checks/compare.py program x
    refuses ../checks/definitions.py footline
    refuses ../checks/demand_runs.py 1 x
    refuses ../tools/explain.py judged/tasks.toml judged/late.csv 2 1
    refuses ../checks/explain_check.py 1 1 1
    refuses ../checks/flight.py "$work" x
    refuses ../checks/mutate.py program 1 x
    refuses ../checks/night.py program 1 x "$work"
    refuses ../checks/pages.py mended
    refuses ../tools/periods.py ''
    refuses ../tools/record/sched.py control/tasks.toml record/by_hand_events.csv 0
    refuses ../tools/record/sched.py control/tasks.toml record/by_hand.txt 1000 0 ctl
    refuses ../checks/second.py program plain x
    refuses ../checks/sensitivity.py 1 x
    refuses ../tools/study/study.py sum

    python3 -B ../tools/study/study.py new "$work/study" 1 10 8 5
    takes_nothing ../checks/definitions.py headline
    takes_nothing ../checks/demand_runs.py 1
    takes_nothing ../tools/explain.py judged/tasks.toml judged/illegal.csv
    takes_nothing ../checks/explain_check.py 1
    takes_nothing ../checks/flight.py "$work"
    takes_nothing ../tools/perfetto.py runs/tasks.toml runs/runs.csv
    takes_nothing ../tools/periods.py 1
    takes_nothing ../tools/record/sched.py control/tasks.toml record/by_hand_events.csv 1000
    takes_nothing ../tools/study/study.py left "$work/study"
fi

# In place of python3 and git comes a tool that ends the script which calls it, after the script has made its folder.
mkdir "$work/tools" "$work/tmp"
cat >"$work/tools/python3" <<'END'
#!/bin/sh
[ "$1" = -c ] || kill -TERM "$PPID"
END
cp "$work/tools/python3" "$work/tools/git"
chmod +x "$work/tools/python3" "$work/tools/git"

# is_empty: the folder for folders is empty, and the script ended with status 1
is_empty() {
    [ "$(cat "$work/status")" -eq 1 ] && [ -z "$(ls -A "$work/tmp")" ]
}

# leaves_nothing SCRIPT WORDS..: the script is ended in the middle
leaves_nothing() {
    TMPDIR=$work/tmp PATH=$work/tools:$PATH call "$@" >"$work/out"
    notes "$*, ended in the middle" is_empty
}
leaves_nothing ../checks/explain.sh
leaves_nothing ../bench/turns.sh
leaves_nothing ../checks/night.sh 1 1

# Two nights of one seed have a folder each.
cat >"$work/tools/python3" <<'END'
#!/bin/sh
[ "$1" != -c ] || exit 0
for folder; do :; done
mkdir -p "$folder" && : >"$folder/$$"
END
have_two() {
    [ "$(find "$work/tmp" -mindepth 1 -maxdepth 1 | wc -l)" -eq 2 ]
}
for _ in 1 2; do
    TMPDIR=$work/tmp PATH=$work/tools:$PATH call ../checks/night.sh 1 1 >"$work/out"
done
notes 'night.sh, twice' have_two
echo "usages: $(wc -l <"$work/scripts") scripts, $calls calls, $failed failed"
[ "$failed" -eq 0 ]
