# shellcheck shell=sh disable=SC2034,SC2154
# Sourced in examples/ by the scripts that try the C libraries, after expect.sh: what they share. The name of the script begins each line.
c=$PWD/../c
usage_line=$(sed -n 's/^usage_line = codes "\(.*\)\\n"$/\1/p' ../crates/command_line/specs/Form.antt)
strict='-Wall -Wextra -Werror -Wpedantic -Wconversion -Wshadow'
script=${0##*/}
script=${script%.sh}
# How many seconds a run may take.
limit=300

# The examples and tests that are run. examples/posix needs root, and is compiled.
in_c='examples/control examples/deadlines examples/margins examples/dispatcher examples/monitor examples/endless examples/tickless
    examples/ask tests/sets tests/many tests/events tests/runs tests/handles tests/judging tests/asking tests/stack tests/places tests/busy
    tests/threads tests/wrong tests/memory tests/fuzz tests/schedules'

# library_for NAME: the file with the calls that this example or test makes: libedfvd_core.a has no edfvd_ask
library_for() {
    case $1 in
    ask | asking | stack | memory | fuzz) echo libedfvd.a ;;
    *) echo libedfvd_core.a ;;
    esac
}

# has TOOL WITHOUT: whether the tool is there; if not, says what is left out
has() {
    command -v "$1" >/dev/null 2>&1 && return 0
    echo "$script: $2 left out: there is no $1"
    return 1
}

# passes WHAT COMMAND..: notes one run, which must end with status 0, within $limit seconds
passes() {
    what=$1
    shift
    runs=$((runs + 1))
    if ! timeout "$limit" "$@" >"$work/out" 2>&1; then
        failed=$((failed + 1))
        echo "$script: $what failed:"
        tail -n 20 "$work/out"
    fi
}

# tries WHAT PROGRAM COMMAND..: notes one run of an example or test, which must end with status 0 and write what is expected, where
# there is a text for it. A line USAGE of the text stands for the program's usage line, which the definition of its words writes out.
tries() {
    what=$1
    text=$c/expected/${2##*/}.txt
    shift 2
    if [ ! -e "$text" ]; then
        passes "$what" "$@"
        return
    fi
    LC_ALL=C sed "s/^USAGE\$/$usage_line/" "$text" >"$work/expected"
    # shellcheck disable=SC2016
    passes "$what" sh -c 'text=$1; shift; "$@" | cmp - "$text"' sh "$work/expected" "$@"
}

# stated: the numbers that the tests take from sentences of edfvd.h, as a header in $work
stated() {
    # shellcheck disable=SC2016
    passes 'the sentences of edfvd.h that tests try' sh -c '"$1" >"$2"' sh "$c/tests/stated.sh" "$work/stated.h"
}

# compiled SOURCE TO FLAGS..: whether the example or test, a path below c, is compiled by $CC without a warning
compiled() {
    source=$1
    to=$2
    shift 2
    case $source in
    tests/fuzz) set -- "$c/tests/fuzz/"*.c "$@" ;;
    tests/standins) set -- "$c/$source.c" "$c/heap.c" "$c/system.c" "$@" -Wl,--wrap=malloc,--wrap=realloc,--wrap=free ;;
    tests/memory | tests/busy) set -- "$c/$source.c" "$@" -Wl,--wrap=malloc,--wrap=realloc,--wrap=free ;;
    *) set -- "$c/$source.c" "$@" ;;
    esac
    # shellcheck disable=SC2086
    passes "compiling $source" "$CC" -std=c11 $strict -I"$c" -I"$work" "$@" -pthread -o "$to"
    [ -x "$to" ]
}
