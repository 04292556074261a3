#!/bin/sh
# Proves and builds the program and the shared library from nothing, in a copy of the sources that are here, and compares them byte by
# byte with those in the folder prebuilt; and, where there is a compiler for 64-bit ARM, what is for that machine, and the page, where
# binaryen's wasm-opt is the one of prebuilt/SOURCES. On four processors this takes 20 to 60 minutes, up to 4.4 GB of memory and 7 GB of
# disk. The copy is made in FOLDER, which must be empty or not be there, and stays; without the word it is made in a temporary folder and
# removed.
# usage: reproduce.sh [FOLDER]
. "$(dirname -- "$0")/prebuilt/tools.sh"
unset TAR_OPTIONS CC CFLAGS LD AR OBJCOPY
takes 0 1 "$@"

# refuse WHY: ends the script
refuse() {
    echo "reproduce.sh: $1" >&2
    exit 1
}

# copy_sources FOLDER: copies what is here, without what was built and without the files that are to be made again
copy_sources() {
    tar -C "$here" --exclude=./.git --exclude=out --exclude=__pycache__ --exclude=./prebuilt/edfvd --exclude=./prebuilt/edfvd.html \
        --exclude=./prebuilt/aarch64 --exclude='libedfvd.so*' -cf - . |
        tar -C "$1" -xf -
}

command -v rt >/dev/null 2>&1 || refuse 'the command rt, which proves and builds, is not on the PATH'
if [ "$(rt version 2>/dev/null)" != "$(cat "$here/KIT")" ]; then
    echo "reproduce.sh: warning: this toolchain is not $(cat "$here/KIT"), and may make other bytes" >&2
fi
if [ $# -eq 1 ]; then
    if ! mkdir -p -- "$1" || ! copy=$(cd -- "$1" && pwd); then refuse "$1 is no folder"; fi
    [ -z "$(ls -A "$copy")" ] || refuse "$copy is not empty"
else
    copy=$(mktemp -d) || refuse 'there is no folder for temporary files'
    trap 'rm -rf "$copy"' EXIT
    trap 'exit 1' HUP INT TERM
fi
copy_sources "$copy" || refuse "the sources cannot be copied to $copy"
"$copy/edfvd" check "$copy/examples/control/tasks.toml" >/dev/null || refuse 'the program was not built'
"$copy/c/build.sh" >&2 || refuse 'the library was not built'
if has_arm; then
    CC=$arm_cc "$copy/c/build.sh" >&2 && CC=$arm_cc "$copy/c/program.sh" >&2 || refuse 'what is for 64-bit ARM was not built'
fi
if [ "$(optimizer)" = "$(grep '^wasm-opt ' "$here/prebuilt/SOURCES")" ]; then
    "$copy/web/build.sh" >&2 || refuse 'the page was not built'
fi
"$here/prebuilt/compare.sh" "$copy"
