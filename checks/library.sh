#!/bin/sh
# Builds the C libraries of the proved code and tries them: the build script, the declarations beside the exports, the examples and
# tests in C with warnings as errors, under the compiler's sanitizers and under memcheck, each allocation failing in turn, random calls
# beside the definitions, the file for pkg-config, the commands of the pages, the Python package with its types, its tests, its examples
# and random calls, and at least 2,000 replies beside the program's. What a missing tool makes impossible is left out, with a line that
# says so.
# The first run after the gate proves edfvd_c and edfvd_ask_c for the libraries, which takes some minutes; all else takes less than
# three on two processors.
# usage: library.sh
. "$(dirname -- "$0")/../tools/usage.sh"
takes 0 0 "$@"
cd "$(dirname -- "$0")/../examples" || exit 1
. ../checks/expect.sh
. ../checks/in_c.sh
python=$PWD/../python
CC=${CC:-cc}
# The seed of the random calls: another one tries other calls.
seed=1

# ground SOURCE NAME: a run under memcheck, of a size that does not take long there
ground() {
    memcheck='valgrind -q --leak-check=full --error-exitcode=9'
    # shellcheck disable=SC2086
    case $1 in
    tests/threads | tests/stack | tests/places) ;;
    examples/endless) passes "$1 under memcheck" $memcheck "$work/$2" 2000 ;;
    tests/fuzz | tests/schedules) passes "$1 under memcheck" $memcheck "$work/$2" "$seed" 400 ;;
    *) tries "$1 under memcheck" "$2" $memcheck "$work/$2" ;;
    esac
}

# tried_in_c: each example and test: as it is, with the sanitizers and under memcheck. Those with threads, with as much stack as the
# header names and with 10^9 places are not for memcheck, and where memory fails on purpose or is measured the sanitizers' own
# allocations are in the way.
tried_in_c() {
    stated
    compiled examples/posix "$work/posix" -O2 "$c/out/libedfvd_core.a"
    # What stands in for the kit on 64-bit ARM is C for any machine.
    # shellcheck disable=SC2086
    compiled tests/standins "$work/standins" ${sane:--O2} && passes tests/standins "$work/standins"
    for source in $in_c; do
        name=${source##*/}
        library=$c/out/$(library_for "$name")
        words=
        case $name in fuzz | schedules) words="$seed 20000" ;; esac
        compiled "$source" "$work/$name" -O2 "$library" || continue
        # shellcheck disable=SC2086
        tries "$source" "$name" "$work/$name" $words
        flags=$sane
        case $name in memory | places) flags= ;; esac
        # shellcheck disable=SC2086
        if [ -n "$flags" ] && compiled "$source" "$work/$name.sane" $flags "$work/sane/libedfvd.a"; then
            tries "$source with sanitizers" "$name" "$work/$name.sane" $words
        fi
        ! command -v valgrind >/dev/null 2>&1 || ground "$source" "$name"
    done
    has valgrind 'memcheck is'
    # The thread sanitizer sees the guards and the test: a call that did not see what the call before it has written would be a race.
    # On x86-64 an exchange without an order compiles to the instruction of one with an order, so a run alone would show nothing.
    racing='-O1 -g -fsanitize=thread'
    # shellcheck disable=SC2086
    if [ -n "$sane" ] && echo 'int main(void) { return 0; }' | "$CC" -xc $racing - -o "$work/none" 2>/dev/null && "$work/none"; then
        passes 'the libraries with the thread sanitizer' env CFLAGS="$racing" "$c/build.sh" "$work/racing"
        compiled tests/threads "$work/threads.racing" $racing "$work/racing/libedfvd.a" &&
            passes 'tests/threads with the thread sanitizer' "$work/threads.racing" 2000
    else
        echo "library: the thread sanitizer is left out: $CC has none that runs here"
    fi
}

# accepted: the table of 10,000 random sets, and its picture
accepted() {
    picture=
    if command -v gnuplot >/dev/null 2>&1 || python3 -c 'import matplotlib' 2>/dev/null; then
        picture=$work/acceptance.svg
    else
        echo 'library: the picture of acceptance.py is left out: there is neither gnuplot nor matplotlib'
    fi
    passes 'acceptance.py' python3 "$python/examples/acceptance.py" 10000 ${picture:+"$picture"}
    cp "$work/out" "$work/table"
    # shellcheck disable=SC2016
    passes 'the shares of acceptance.py, which fall' awk '
        BEGIN { before = 1 }
        $2 <= before { falls++ }
        { before = $2 }
        END { exit !(NR == 10 && falls == 10) }
    ' "$work/table"
    [ -z "$picture" ] || passes 'the picture of acceptance.py' grep '</svg>' "$picture"
}

# commands PAGE FIRST: the commands of a page from the line that begins with FIRST to the end of its block
commands() {
    awk -v first="$2" 'index($0, first) == 1 { shown = 1 } /^```/ { shown = 0 } shown' "$c/../$1"
}

# shown WHAT TEXT..: runs the commands of a page in $work/shown.sh from the repository's folder, which must print these texts. They
# begin with the user's own environment, in which pip installs only into a virtual environment, as it is on Debian.
shown() {
    whose=$1
    shift
    # shellcheck disable=SC2016
    passes "$whose" env -u PYTHONPATH HOME="$work/home" PIP_REQUIRE_VIRTUALENV=1 PIP_NO_INDEX=1 PIP_DISABLE_PIP_VERSION_CHECK=1 \
        sh -ec 'cd "$1"; . "$2"' sh "$c/.." "$work/shown.sh"
    cp "$work/out" "$work/shown.txt"
    for text; do passes "$text from $whose" grep -F "$text" "$work/shown.txt"; done
}

# pages: the commands that the pages show for C and Python
pages() {
    mkdir "$work/home"
    commands README.md 'mkdir -p c/out' >"$work/shown.sh"
    shown 'the commands of README.md' 'x 2/5' 'Fraction(2, 5)'
    {
        commands docs/C-AND-PYTHON.md 'export PYTHONPATH'
        if python3 -c 'import venv, ensurepip' 2>/dev/null; then
            commands docs/C-AND-PYTHON.md 'python3 -m venv'
        else
            echo 'library: installing the package is left out: python3 has no venv' >&2
            echo 'echo 50'
        fi
    } >"$work/shown.sh"
    shown 'the commands of C-AND-PYTHON.md for Python' 2/5 50
    commands docs/C-AND-PYTHON.md 'mkdir -p c/out' >"$work/shown.sh"
    shown 'the commands of C-AND-PYTHON.md for C' 'x 2/5'
}

# fuzzed: random calls of the package, with the library as it is and with the guards under the address sanitizer, say the same
fuzzed() {
    passes 'python_fuzz.py' python3 -B ../checks/python_fuzz.py 3000 1
    cp "$work/out" "$work/fuzz"
    cat "$work/fuzz"
    asan=$("$CC" -print-file-name=libasan.so)
    if [ -z "$sane" ] || [ "$asan" = libasan.so ]; then
        echo "library: python_fuzz.py under the sanitizers is left out: $CC has no libasan.so"
        return
    fi
    # shellcheck disable=SC2086
    passes 'the shared library with sanitizers' "$CC" -shared $sane -Wl,--whole-archive "$work/sane/libedfvd.a" \
        -Wl,--no-whole-archive -o "$work/sane/libedfvd.so"
    passes 'python_fuzz.py under the sanitizers' env LD_PRELOAD="$asan" ASAN_OPTIONS=detect_leaks=0 PYTHONMALLOC=malloc \
        EDFVD_LIBRARY="$work/sane/libedfvd.so" python3 -B ../checks/python_fuzz.py 3000 1
    cp "$work/out" "$work/sane/fuzz"
    passes 'the two outputs of python_fuzz.py' cmp "$work/fuzz" "$work/sane/fuzz"
}

if has "$CC" 'the libraries are' && has rt 'the libraries are' && has objcopy 'the libraries are'; then
    limit=3600
    passes 'c/build.sh' "$c/build.sh"
    limit=300
    passes 'tests/building.sh' "$c/tests/building.sh"
    if has python3 'the comparison of declarations is'; then
        passes 'declared.py' python3 "$c/declared.py"
        python3 "$c/declared.py" offsets >"$work/offsets.c"
        # shellcheck disable=SC2086
        passes 'the layout of structs' "$CC" -std=c11 $strict -I"$c" -c "$work/offsets.c" -o "$work/offsets.o"
    fi
    cat >"$work/header.cc" <<'END'
#include "edfvd.h"
static edfvd_scheduler none = EDFVD_NONE;
int main() { return edfvd_scheduler_close(&none) == EDFVD_CLOSED ? 0 : 1; }
END
    if has "${CXX:=c++}" 'the header as C++ is'; then
        # shellcheck disable=SC2086
        passes 'the header as C++17' "$CXX" -std=c++17 $strict -I"$c" "$work/header.cc" "$c/out/libedfvd_core.a" -o "$work/header"
        passes 'a call from C++' "$work/header"
    fi
    if has pkg-config 'the file for pkg-config is'; then
        # shellcheck disable=SC2016
        passes 'pkg-config' env PKG_CONFIG_PATH="$c/out" sh -c '
            "$1" "$2/examples/control.c" $(pkg-config --cflags --libs edfvd) -o "$3"
        ' sh "$CC" "$c" "$work/shared"
        tries 'control with the shared library' control env LD_LIBRARY_PATH="$c/out" "$work/shared"
    fi
    if has nm 'the symbols of dispatcher.c are'; then
        # shellcheck disable=SC2016
        passes 'dispatcher.c without a C library' sh -c '
            "$1" -std=c11 -O2 -ffreestanding -I"$2" -c "$2/examples/dispatcher.c" -o "$3" && ! nm -u "$3" | grep -v " U edfvd_"
        ' sh "$CC" "$c" "$work/dispatcher.o"
    fi
    # The sanitizers see the guards and the examples, and not the proved code, which is compiled already.
    sane='-O1 -g -fsanitize=address,undefined -fno-sanitize-recover=all'
    # shellcheck disable=SC2086
    if echo 'int main(void) { return 0; }' | "$CC" -xc $sane - -o "$work/none" 2>/dev/null; then
        passes 'the libraries with sanitizers' env CFLAGS="$sane" "$c/build.sh" "$work/sane"
    else
        sane=
        echo "library: the sanitizers are left out: $CC has none"
    fi
    tried_in_c
    if has python3 'the Python package is'; then
        unset EDFVD_LIBRARY
        export PYTHONPATH="$python" PYTHONDONTWRITEBYTECODE=1
        passes 'the tests and examples in Python' python3 -m unittest discover -q -s "$python/tests"
        passes 'what may change in 300 random sets, beside brute force' python3 -B ../checks/sensitivity.py 300 1
        passes 'the replies beside the program' python3 "$python/tests/against_program.py" "$program" 2000
        tail -n 1 "$work/out"
        accepted
        if python3 -c 'import tomllib' 2>/dev/null; then
            fuzzed
        else
            echo 'library: python_fuzz.py is left out, there is no python3 of version 3.11 or later'
        fi
        if has mypy 'the check of types is'; then
            passes 'mypy' env MYPYPATH="$python" mypy --config-file "$python/pyproject.toml" --cache-dir="$work/mypy" \
                "$python/edfvd" "$python/tests" "$python/examples" "$python/backend.py" "$c/declared.py"
        fi
        pages
    fi
fi
ends library
