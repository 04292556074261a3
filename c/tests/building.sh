#!/bin/sh
# Tries c/build.sh where a build script is easily wrong: a folder with a space in its path, an exported CDPATH, each umask, libraries
# that are in use while they are built again, and runs that a signal ends. It builds in a folder of its own, in which all
# that is only read is a link. The crates are proved already: run c/build.sh first.
# usage: building.sh
. "$(dirname -- "$0")/../../tools/usage.sh"
takes 0 0 "$@"
unset CDPATH
root=$(cd "$(dirname -- "$0")/../.." && pwd) || exit 1
work=$(mktemp -d) || exit 1
trap 'rm -rf "$work"' EXIT
trap 'exit 1' HUP INT TERM
clone="$work/a clone"
tools=$work/tools
TMPDIR=$work/"for files of a while"
export TMPDIR
made='c/out/libedfvd.a c/out/libedfvd_core.a c/out/libedfvd.so c/out/edfvd.pc python/edfvd/libedfvd.so'
tries=0
failed=0

# notes WHAT TEST..: notes one try, for which the test must hold
notes() {
    what=$1
    shift
    tries=$((tries + 1))
    if ! "$@"; then
        failed=$((failed + 1))
        echo "building: $what"
        tail -n 5 "$work/log"
    fi
}

# mode_of PATH: the permissions of the file, as ls shows them
mode_of() {
    # shellcheck disable=SC2012
    ls -ld "$1" | cut -c1-10
}

# inode_of PATH: the number of the file, whatever its name is
inode_of() {
    # shellcheck disable=SC2012
    ls -i "$1" | sed 's/^ *\([0-9]*\) .*/\1/'
}

# are_only FOLDER NAMES..: the folder has these files and no others, not even hidden ones
are_only() {
    folder=$1
    shift
    [ "$(ls -A "$folder")" = "$(printf '%s\n' "$@")" ]
}

# builds COMMAND..: whether it ends with status 0
builds() {
    "$@" >"$work/log" 2>&1
}

# whole_files: each file is there with the mode 644, the soname is a link to the shared library, and nothing else is there
whole_files() {
    for file in $made; do
        [ "$(mode_of "$clone/$file")" = -rw-r--r-- ] || return 1
    done
    soname=libedfvd.so.$(sed -n 's/^#define EDFVD_VERSION //p' "$root/c/edfvd.h")
    [ "$(readlink "$clone/c/out/$soname")" = libedfvd.so ] || return 1
    are_only "$clone/c/out" edfvd.pc libedfvd.a libedfvd.so "$soname" libedfvd.so.sources libedfvd_core.a && are_only "$clone/python/edfvd" libedfvd.so
}

# under UMASK WORDS..: builds from the folder above, by a relative name, with an exported CDPATH in which c is another folder
under() {
    (
        umask "$1"
        shift
        cd "$clone" || exit 1
        CDPATH=$work/decoy builds env CDPATH="$work/decoy" c/build.sh "$@"
    )
}

# stay: a build gives each name to another file, and whoever has the old one goes on reading what it was
stay() {
    mkdir "$work/held" "$work/before"
    for file in $made; do
        ln "$clone/$file" "$work/held/${file%%/*}.${file##*/}" || return 1
        cp "$clone/$file" "$work/before/${file%%/*}.${file##*/}"
    done
    under 022 || return 1
    for file in $made; do
        held=$work/held/${file%%/*}.${file##*/}
        cmp -s "$held" "$work/before/${held##*/}" && [ "$(inode_of "$held")" != "$(inode_of "$clone/$file")" ] || return 1
    done
}

# ended TOOL: a build that SIGTERM ends when it calls this tool: its status is not 0, and it leaves nothing behind
ended() {
    # shellcheck disable=SC2016
    printf '#!/bin/sh\nkill -TERM "$PPID"\nexit 1\n' >"$tools/$1"
    chmod 755 "$tools/$1"
    (cd "$clone" && PATH="$tools:$PATH" builds c/build.sh "$work/ended")
    status=$?
    rm "$tools/$1"
    [ "$status" -ne 0 ] && are_only "$TMPDIR" && are_only "$work/ended"
    clean=$?
    rm -rf "$TMPDIR" "$work/ended"
    mkdir "$TMPDIR"
    return "$clean"
}

# is_noted: the note beside the library has the sum of the library, and a digest of its sources before that
is_noted() {
    grep -qx "[0-9a-f]\{64\} $(sha256sum <"$clone/c/out/libedfvd.so" | sed 's/ .*//')" "$clone/c/out/libedfvd.so.sources"
}

# is_not_noted: a build in which a source changes leaves no note, since the library may have the old source or the new one
is_not_noted() {
    objcopy=${OBJCOPY:-objcopy}
    printf '#!/bin/sh\necho "// more" >>"%s/c/edfvd.c"\nexec %s "$@"\n' "$clone" "$(command -v "$objcopy")" >"$tools/changing"
    chmod 755 "$tools/changing"
    OBJCOPY=$tools/changing under 022 && [ -e "$clone/c/out/libedfvd.so" ] && ! [ -e "$clone/c/out/libedfvd.so.sources" ]
    status=$?
    cp "$root/c/edfvd.c" "$clone/c"
    return "$status"
}

mkdir -p "$clone/c" "$clone/python/edfvd" "$work/decoy/c" "$tools" "$TMPDIR"
for path in "$root"/*; do
    case ${path##*/} in
    c | python) ;;
    *) ln -s "$path" "$clone/" ;;
    esac
done
cp "$root/c/build.sh" "$root/c/machine.sh" "$root/c/program.sh" "$root"/c/*.c "$root/c/edfvd.h" "$clone/c/"

# refuses STATUS LINE COMMAND..: the command has this status and writes this line, and makes nothing
refuses() {
    want=$1
    line=$2
    shift 2
    "$@" >"$work/log" 2>&1
    [ $? -eq "$want" ] && [ "$(cat "$work/log")" = "$line" ] && [ ! -e "$clone/c/out" ] && are_only "$TMPDIR"
}

# for_machine NAME: a compiler that says it compiles for this machine
for_machine() {
    printf '#!/bin/sh\ncase $1 in\n-dumpmachine) echo %s ;;\nesac\n' "$1" >"$tools/$1-gcc"
    chmod 755 "$tools/$1-gcc"
    echo "$tools/$1-gcc"
}

for machine in riscv64-linux-gnu aarch64-apple-darwin x86_64-w64-mingw32 arm-linux-gnueabihf; do
    compiler=$(for_machine "$machine")
    for script in build.sh program.sh; do
        notes "$script for $machine" refuses 1 "$script: $compiler compiles for $machine; only x86-64 Linux and 64-bit ARM Linux are known here" \
            env LD=true AR=true OBJCOPY=true CC="$compiler" "$clone/c/$script"
    done
done
printf '#!/bin/sh\nexit 1\n' >"$tools/none-gcc"
chmod 755 "$tools/none-gcc"
notes 'a compiler that says nothing' refuses 1 "build.sh: $tools/none-gcc does not say for which machine it compiles" \
    env LD=true AR=true OBJCOPY=true CC="$tools/none-gcc" "$clone/c/build.sh"
for script in build.sh program.sh; do
    notes "$script without its compiler" refuses 127 "$script: no-such-gcc is not on the PATH" env CC=no-such-gcc "$clone/c/$script"
    notes "$script without its archiver" refuses 127 "$script: no-such-ar is not on the PATH" env CC=cc AR=no-such-ar "$clone/c/$script"
done
compiler=$(for_machine x86_64-linux-gnu)
notes 'program.sh for x86-64' refuses 1 "program.sh: $compiler compiles for x86-64, for which ./edfvd builds the program" \
    env LD=true AR=true OBJCOPY=true CC="$compiler" "$clone/c/program.sh"

for mask in 077 027 022; do
    rm -rf "$clone/c/out"
    notes "with the umask $mask" under "$mask"
    notes "the files with the umask $mask" whole_files
    notes "the folder with the umask $mask" [ "$(mode_of "$clone/c/out")" = drwxr-xr-x ]
done
notes 'the note beside the library' is_noted
notes 'a source that changes during the build' is_not_noted
notes 'again, with the source as it was' under 022
notes 'the note that is there again' is_noted
notes 'into a folder' under 077 "$work/static ones"
notes 'the files of a folder' are_only "$work/static ones" libedfvd.a libedfvd_core.a
notes 'again, while the files are in use' stay
for tool in "${CC:-cc}" "${LD:-ld}" "${AR:-ar}" "${OBJCOPY:-objcopy}" cat chmod mv; do
    case $tool in */*) continue ;; esac
    notes "a run that was ended in $tool" ended "$tool"
done
if command -v pkg-config >/dev/null 2>&1; then
    # shellcheck disable=SC2016
    notes 'pkg-config with a space in the path' builds env PKG_CONFIG_PATH="$clone/c/out" sh -c '
        eval "\"\$1\" \"\$2/c/examples/control.c\" $(pkg-config --cflags --libs edfvd) -o \"\$3\""
    ' sh "${CC:-cc}" "$root" "$work/control"
fi
echo "building: $tries tries, $failed failed"
[ "$failed" -eq 0 ]
