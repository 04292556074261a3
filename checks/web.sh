#!/bin/sh
# Tries the page of the folder web. By node: what it reads, draws, explains and makes of files, with values worked out by hand; the
# explanation of random illegal traces beside checks/model.py; recordings beside tools/record/sched.py; the contrast of its colours; its
# module beside the program, on random files and traces, each status and each byte; its module for sets of numbers beside the shared
# library, on random sets; and the time of a run of a million ticks. By cc: the heap of the modules. By Chromium and Firefox, without a
# screen: the page in one file, opened from the disk and used. The page is the one that web/build.sh makes, where rt and binaryen's
# wasm-opt are there, or else the prebuilt one. What a missing tool makes impossible is left out, with a line that says so.
# The first run after the gate builds the page, which takes some minutes; all else takes three.
# usage: web.sh [CASES [TRACES]]
. "$(dirname -- "$0")/../tools/usage.sh"
takes_numbers "$@"
cd "$(dirname -- "$0")/../examples" || exit 1
. ../checks/expect.sh
. ../sources.sh
here=$(cd .. && pwd)
web=$here/web
seed=1
limit=600

# has TOOL WITHOUT: whether the tool is there; if not, says what is left out
has() {
    command -v "$1" >/dev/null 2>&1 && return 0
    echo "web: $2 left out: there is no $1"
    return 1
}

# passes WHAT COMMAND..: notes one run, which must end with status 0 within $limit seconds; its last line is shown
passes() {
    what=$1
    shift
    runs=$((runs + 1))
    if timeout "$limit" "$@" >"$work/text" 2>&1; then
        tail -n 1 "$work/text"
    else
        failed=$((failed + 1))
        echo "web: $what failed:"
        tail -n 20 "$work/text"
    fi
}

# refuses SCRIPT WORDS..: the script has a usage, and answers these words by it
refuses() {
    script=$1
    shift
    runs=$((runs + 1))
    case $script in
    *.py) set -- python3 -B "$web/$script" "$@" ;;
    *) set -- "$web/$script" "$@" ;;
    esac
    "$@" >"$work/out" 2>"$work/err"
    status=$?
    if [ $status -ne 2 ] || [ -s "$work/out" ] || ! head -n 1 "$work/err" | grep -q "^usage: ${script##*/}"; then
        failed=$((failed + 1))
        echo "web: $* does not answer by its usage, but with status $status"
    fi
}

# is_recent_node: whether there is a node that reads modules and runs the page's scripts
is_recent_node() {
    has node 'the tests by node' || return 1
    node -e 'process.exit(parseInt(process.versions.node) < 18 ? 1 : 0)' && return
    echo 'web: the tests by node left out: this node is older than version 18'
    return 1
}

# is_recent_python: whether there is a python3 in which the tools read TOML
is_recent_python() {
    python3 -c 'import tomllib' 2>/dev/null && return
    echo 'web: all tests with random files left out: there is no python3 of version 3.11 or later'
    return 1
}

# builds_page: the page, if the tools are there. Without the gate the crates are proved first, which takes up to an hour.
builds_page() {
    has rt 'building the page' && has wasm-opt 'building the page' && has python3 'building the page' || return
    limit=7200
    passes 'building the page' "$web/build.sh"
    limit=600
}

# finds_page: sets $chosen to the page of these sources
finds_page() {
    choose_page && return
    echo 'web: the tests of the whole page left out: neither web/out nor prebuilt has a page of these sources'
    return 1
}

# finds_library: sets $chosen to the shared library of these sources
finds_library() {
    choose_library && return
    echo 'web: the sets of numbers left out: neither c/out nor prebuilt has a library of these sources'
    return 1
}

# answers_as WHAT SCRIPT PAGE CASES WORDS..: the script in node, with this page, if there is one, and the cases that the script CASES writes
answers_as() {
    what=$1 test=$2 page=$3 cases_of=$4
    shift 4
    if python3 -B "$web/tests/$cases_of" "$@" >"$work/cases.json"; then
        passes "$what" node "$web/tests/$test" ${page:+"$page"} "$work/cases.json"
    else
        runs=$((runs + 1)) failed=$((failed + 1))
        echo "web: $cases_of failed"
    fi
}

# uses_page BROWSER COMMAND: the page in this browser
uses_page() {
    has "$2" "the page in $1" || return
    python3 -c 'import sys, urllib.parse; print("file://" + urllib.parse.quote(sys.argv[1]))' "$chosen" >"$work/address"
    passes "the page in $1" python3 -B "$web/tests/pages.py" "$1" "$(cat "$work/address")"
}

# tries_heap: a hundred thousand random calls of the heap, natively and under the sanitizers
tries_heap() {
    has "${CC:-cc}" 'the heap' || return
    sed -e '/^#define MOST_MEMORY/d' -e '/^extern unsigned char __heap_base/d' "$web/heap.c" >"$work/heap_under_test.c"
    passes 'compiling the heap' "${CC:-cc}" -O1 -fsanitize=address,undefined -fno-sanitize-recover=all -w -I "$work" "$web/tests/heap.c" -o "$work/heap"
    passes 'the heap' "$work/heap"
}

cases=${1:-500}
traces=${2:-100}
for script in build.sh single.py examples.py tests/cases.py tests/recordings.py tests/reasons.py tests/sets.py tests/pages.py; do
    refuses "$script" --wrong
    refuses "$script" 1 2 3 4 5 6 7 8 9
done
refuses retarget.py --wrong
refuses retarget.py clang module.bc module.o
refuses tests/pages.py netscape "file://$web"
tries_heap
is_node=yes
is_recent_node || is_node=
if [ -n "$is_node" ]; then
    for test in reading drawing reasons contrast; do passes "$test" node "$web/tests/$test.js"; done
fi
builds_page
if is_recent_python; then
    if [ -n "$is_node" ]; then
        answers_as recording recording.js '' recordings.py 120 "$seed"
        answers_as 'reasons of random traces' random_reasons.js '' reasons.py 600 "$seed"
    fi
    if finds_page; then
        made=$chosen
        if [ -n "$is_node" ]; then
            answers_as answers answers.js "$made" cases.py "$program" "$cases" "$traces" "$seed"
            passes 'a run of a million ticks' node "$web/tests/speed.js" "$made"
            if finds_library; then answers_as sets sets.js "$made" sets.py "$chosen" 300 "$seed"; fi
        fi
        chosen=$made
        uses_page chromium chromium
        uses_page firefox firefox-esr
    fi
fi
echo "web: $runs tried, $failed failed"
[ "$failed" -eq 0 ]
