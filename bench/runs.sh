#!/bin/sh
# Measures a run of 1, 1,000 and 1,000,000,000 ticks beside single ticks, in C and from Python, and the day of the tickless example:
# nanoseconds of processor time, and instructions counted by callgrind, of a job as c/bench/runs.c describes it. Then the instructions of
# each call of single ticks, of a schedule as c/bench/calls.c describes it. The word is a folder with libedfvd.so to measure, c/out
# without it.
# usage: runs.sh [FOLDER]
. "$(dirname -- "$0")/../tools/usage.sh"
takes 0 1 "$@"
here=$(cd "$(dirname -- "$0")/.." && pwd) || exit 1
out=$(cd "${1:-$here/c/out}" && pwd) || exit 1
for tool in cc valgrind callgrind_annotate python3; do
    command -v "$tool" >/dev/null 2>&1 || { echo "runs.sh: there is no $tool" >&2; exit 1; }
done
work=$(mktemp -d) || exit 1
trap 'rm -rf "$work"' EXIT
trap 'exit 1' HUP INT TERM
# A program looks for the library by its soname, which has a number after it.
ln -s "$out/libedfvd.so" "$work/libedfvd.so" || exit 1
ln -s "$out/libedfvd.so" "$work/libedfvd.so.$(sed -n 's/^#define EDFVD_VERSION //p' "$here/c/edfvd.h")" || exit 1
cc -std=c11 -O2 -I"$here/c" "$here/c/bench/runs.c" "$work/libedfvd.so" -o "$work/runs" || exit 1
cc -std=c11 -O2 -I"$here/c" "$here/c/bench/calls.c" "$work/libedfvd.so" -o "$work/calls" || exit 1
export LD_LIBRARY_PATH="$work" LD_BIND_NOW=1 EDFVD_LIBRARY="$out/libedfvd.so" PYTHONPATH="$here/python" PYTHONDONTWRITEBYTECODE=1
# The interpreter itself: python3 may be a script that looks for it.
in_python="$(python3 -c 'import sys; print(sys.executable)') $here/bench/runs.py"

# instructions COMMAND TICKS JOBS HOW: of a whole process
instructions() {
    # shellcheck disable=SC2086
    valgrind --tool=callgrind --callgrind-out-file=/dev/null $1 "$2" "$3" "$4" 2>&1 >/dev/null | sed -n 's/.*Collected : //p'
}

# measured WHAT COMMAND TICKS JOBS HOW FEW: the least time of five runs, and the instructions by the difference of twice FEW jobs and FEW
measured() {
    least=$(for _ in 1 2 3 4 5; do $2 "$3" "$4" "$5"; done | sed -n 's/.* \([0-9.]*\) ns a job/\1/p' | sort -n | head -n 1)
    first=$(instructions "$2" "$3" "$6" "$5")
    second=$(instructions "$2" "$3" $((2 * $6)) "$5")
    if [ -z "$least" ] || [ -z "$first" ] || [ -z "$second" ]; then
        echo "runs.sh: $2 $3 $4 $5 failed" >&2
        exit 1
    fi
    echo "$1: $least ns, $(((second - first) / $6)) instructions"
}

# inclusive PERIODS KIND: the name of each call, and its instructions with what it calls
inclusive() {
    valgrind --tool=callgrind --callgrind-out-file="$work/counts" "$work/calls" "$1" "$2" >/dev/null 2>&1 || return
    callgrind_annotate --inclusive=yes --threshold=100 "$work/counts" | tr -d , |
        sed -n 's/^ *\([0-9]*\) .*:\(edfvd_scheduler_[a-z]*\).*/\2 \1/p' | sort
}

# calls KIND: the instructions of each call, by the difference of 3,000 periods and 1,000
calls() {
    inclusive 1000 "$1" >"$work/few"
    inclusive 3000 "$1" >"$work/many"
    join "$work/few" "$work/many" | awk -v kind="$1" '
        BEGIN {
            times["release"] = 2; times["look"] = 1; times["grant"] = times["outcome"] = 7; times["idle"] = 3
            for (call in times) left++
        }
        { call = $1; sub("edfvd_scheduler_", "", call) }
        call in times { printf "%s, %s: %.1f instructions\n", $1, kind, ($3 - $2) / 2000 / times[call]; left-- }
        END { exit left != 0 }
    ' || { echo "runs.sh: calls $1 failed" >&2; exit 1; }
}

for ticks in 1 1000 1000000000; do
    measured "C, $ticks ticks in a run" "$work/runs" "$ticks" 100000 runs 10000
    measured "Python, $ticks ticks in a run" "$in_python" "$ticks" 10000 runs 1000
done
measured 'C, 1 tick by itself' "$work/runs" 1 100000 ticks 10000
measured 'C, 1000 ticks one by one' "$work/runs" 1000 1000 ticks 50
measured 'Python, 1 tick by itself' "$in_python" 1 10000 ticks 1000
measured 'Python, 1000 ticks one by one' "$in_python" 1000 10 ticks 5
for how in day day-by-tick; do
    measured "C, 10 ticks of the $how" "$work/runs" 10 864000 "$how" 10000
    "$work/runs" 10 8640000 "$how"
done
calls with-end
calls endless
