# shellcheck shell=sh disable=SC2034,SC2154
# Sourced by the scripts that build with the C compiler CC, for the machine that it compiles for: x86-64 Linux, or 64-bit ARM Linux.
# They set $here to the repository's folder and source sources.sh.

# there TOOL..: ends the script if a tool is not on the PATH
there() {
    for tool; do
        command -v "$tool" >/dev/null || { echo "${0##*/}: $tool is not on the PATH" >&2; exit 127; }
    done
}

# own TOOL: the tool of this name for the machine: the system's for x86-64, and the compiler's own for another
own() {
    if [ -z "$machine" ]; then echo "$1"; else "$CC" -print-prog-name="$1"; fi
}

# find_machine: sets the tools, and $machine to aarch64, or to nothing for x86-64
find_machine() {
    there rt "${CC:=cc}"
    target=$("$CC" -dumpmachine) || { echo "${0##*/}: $CC does not say for which machine it compiles" >&2; exit 1; }
    case $target in
    x86_64-*linux*) machine= ;;
    aarch64-*linux*) machine=aarch64 ;;
    *)
        echo "${0##*/}: $CC compiles for $target; only x86-64 Linux and 64-bit ARM Linux are known here" >&2
        exit 1
        ;;
    esac
    there "${LD:=$(own ld)}" "${AR:=$(own ar)}" "${OBJCOPY:=$(own objcopy)}"
    # Each function in a section of its own. Without the last flag a compiler for ARM calls a function of its library for each exchange.
    sections='-ffunction-sections -fdata-sections'
    [ -z "$machine" ] || sections="$sections -mno-outline-atomics"
    strict='-std=c11 -Wall -Wextra -Werror -Wpedantic -Wconversion -Wshadow'
    kit=$(dirname "$(dirname "$(readlink -f "$(command -v rt)")")")
    crates=$here/crates
}

# begin FOLDER: makes the folder, and $parts for what is made on the way, which goes when the script ends
begin() {
    mkdir -p "$1"
    parts=
    beside=
    trap 'rm -rf ${parts:+"$parts"} ${beside:+"$beside"}' EXIT
    trap 'exit 1' HUP INT TERM
    parts=$(mktemp -d) || exit 1
}

# put MADE NAME [MODE]: the file that was made takes this name, with this mode, or 644
put() {
    beside=$(mktemp "$2.XXXXXX")
    cat "$1" >"$beside"
    chmod "${3:-644}" "$beside"
    mv -f "$beside" "$2"
    beside=
}

# note_unless_changed FILE NAME DIGEST: notes beside the file that it was made of the sources with this digest, which were those of NAME
# before. Sources that were changed meanwhile may be in the file or not, so then nothing is noted.
note_unless_changed() {
    rm -f "$1.sources"
    if [ "$(digest_of "$2")" = "$3" ]; then note_sources "$1" "$3"; fi
}

# below CRATE: the crates of this repository that it stands on
below() {
    crate_lines "$1" | sed "s/:.*//; /^$1\$/d"
}

# changed PATH CRATE..: a source of these crates that is newer than the path, if there is one
changed() {
    path=$1
    shift
    for name; do
        find "$crates/$name" -name out -prune -o \( -name '*.rt' -o -name '*.antt' \) -newer "$path" -print -quit
    done
}

# is_newest FILE CRATE: whether the file is there and no source of the crate or of those below it is newer
is_newest() {
    # shellcheck disable=SC2046
    [ -e "$1" ] && [ -z "$(changed "$1" "$2" $(below "$2"))" ]
}

# on_gate CRATE: whether each crate below it stands as rt ci has proved it, which leaves no stamp
on_gate() {
    for name in $(below "$1"); do
        rlib=$crates/$name/out/rlib/$name.rlib
        if ! [ -d "$rlib" ] || [ -e "$crates/$name/out/rlib/stamp" ] || [ -n "$(changed "$rlib" "$name")" ]; then return 1; fi
    done
}

# compile CRATE ROOT MADE WORDS..: proves the crate, whose first source is src/ROOT, and compiles it for the machine, by rattle as rt
# calls it: rt takes no library that rt ci has made, and knows no 64-bit ARM. What is proved is kept in the crate's folder
# out/incremental and loaded from there for the other machine, since no statement and no proof depends on the machine.
compile() {
    crate=$1
    root=$2
    made=$3
    shift 3
    for name in $(below "$crate"); do set -- "$@" -L "dependency=$crates/$name/out/rlib"; done
    for name in std $(crate_lines "$crate" | sed -n "s/^$crate: *//p"); do
        rlib=$crates/$name/out/rlib/$name.rlib
        [ -d "$rlib" ] || rlib=$kit/rlibs/$name.rlib
        set -- "$@" --extern "$name=$rlib"
    done
    mkdir -p "$crates/$crate/out" "${made%/*}"
    (cd "$crates/$crate" && "$kit/bin/rattle" build --crate-name "$crate" "src/$root" --links "$crate=" "$@" \
        -L "dependency=$kit/rlibs" --antt-project "$kit/rattle/logic/antt-project.json" --logic-built "$kit/logic_built" \
        --incremental out/incremental ${machine:+--target "$machine-unknown-linux-gnu"} \
        --jobs 2 --toolchain "$kit/toolchain" --backend llvm -o "$parts/${made##*/}" >&2)
    put "$parts/${made##*/}" "$made"
}
