#!/bin/sh
# Compares the folder prebuilt with the sources that are here, and byte by byte with what was built in the folder TREE, which is this
# repository's if none is named. The bytes of the library depend on the compiler and the linker in C; where those of SOURCES are not on
# this machine, the calls that the two libraries offer are compared. What is for 64-bit ARM, and the page, are compared with the sources;
# with what was built only where the compilers, and wasm-opt, are those of SOURCES. A line says what differs, and the status is then 1.
# usage: compare.sh [TREE]
. "$(dirname -- "$0")/tools.sh"
takes 0 1 "$@"
tree=${1:-$here}
limit=3145728
failed=0
compared=0

# notes WHAT COMMAND..: WHAT is said if the command fails
notes() {
    what=$1
    shift
    compared=$((compared + 1))
    if ! "$@" >/dev/null 2>&1; then
        failed=$((failed + 1))
        echo "prebuilt: $what"
    fi
}

# sums: the sums hold, and are those of all files
sums() {
    (cd "$here/prebuilt" && [ "$(sed 's/^[0-9a-f]*  //' SHA256SUMS)" = "$(echo "$files" | tr ' ' '\n')" ] && sha256sum --status -c SHA256SUMS)
}

# is_small: all files together are no larger than the limit
is_small() {
    # shellcheck disable=SC2086
    [ "$(cd "$here/prebuilt" && cat README.md SHA256SUMS ./*.sh $files | wc -c)" -le "$limit" ]
}

# has_built FILE: whether the tree has this file
has_built() {
    [ -e "$tree/$1" ] && return
    failed=$((failed + 1))
    echo "prebuilt: $tree/$1 is not built"
    return 1
}

# calls FILE: the names that a library offers
calls() {
    nm -D --defined-only "$1" | sed 's/.* //' | LC_ALL=C sort
}

# has_calls: both libraries offer the same calls
has_calls() {
    [ -n "$(calls "$here/prebuilt/libedfvd.so")" ] && [ "$(calls "$here/prebuilt/libedfvd.so")" = "$(calls "$tree/$built_library")" ]
}

# compares_library: byte by byte if the tools are the same
compares_library() {
    compilers >/dev/null
    if [ "$(compilers)" = "$(grep '^cc \|^ld ' "$here/prebuilt/SOURCES")" ]; then
        notes 'libedfvd.so is not the one that was built' cmp "$here/prebuilt/libedfvd.so" "$tree/$built_library"
    else
        echo 'prebuilt: of libedfvd.so the names of the calls are compared, and not the bytes: cc or ld is not that of prebuilt/SOURCES'
        notes 'libedfvd.so has not the calls of the one that was built' has_calls
    fi
}

# compares_arm: byte by byte, where there is a compiler for 64-bit ARM and it is the one of SOURCES
compares_arm() {
    if ! has_arm; then
        echo "prebuilt: what is for 64-bit ARM is not compared with what was built: there is no $arm_cc"
    elif [ "$(arm_compilers)" != "$(grep '^aarch64/cc \|^aarch64/ld ' "$here/prebuilt/SOURCES")" ]; then
        echo "prebuilt: what is for 64-bit ARM is not compared with what was built: its cc or ld is not that of prebuilt/SOURCES"
    else
        for name in $arm; do
            if has_built "c/out/$name"; then notes "$name is not the one that was built" cmp "$here/prebuilt/$name" "$tree/c/out/$name"; fi
        done
    fi
}

# compares_page: byte by byte if wasm-opt is the same
compares_page() {
    if [ "$(optimizer)" = "$(grep '^wasm-opt ' "$here/prebuilt/SOURCES")" ]; then
        if has_built "$built_page"; then notes "$page is not the one that was built" cmp "$here/prebuilt/$page" "$tree/$built_page"; fi
    else
        echo 'prebuilt: edfvd.html is not compared with what was built: wasm-opt is not there, or not that of prebuilt/SOURCES'
    fi
}

notes 'SHA256SUMS is wrong' sums
for name in $native $page $arm; do
    notes "$name is not of the sources that are here: prebuilt/refresh.sh writes it again" is_prebuilt "$name"
done
for name in LICENSE-APACHE LICENSE-MIT THIRD-PARTY-LICENSES; do
    notes "$name is not the one of the repository" cmp "$here/prebuilt/$name" "$here/$name"
done
notes "more than $limit bytes" is_small
if has_built "$built_program"; then notes 'edfvd is not the program that was built' cmp "$here/prebuilt/edfvd" "$tree/$built_program"; fi
if has_built "$built_library"; then compares_library; fi
compares_arm
compares_page
echo "prebuilt: $compared compared, $failed failed"
[ "$failed" -eq 0 ]
