#!/bin/sh
# Writes what was built here to the folder prebuilt: the program, the shared library, in aarch64 both for 64-bit ARM with the static
# library, and the page in one file; the licences of what is linked into them, the digests of their sources (SOURCES) and the sums of all
# these files (SHA256SUMS). The program must be built from the sources that are here, by the toolchain of KIT; c/build.sh, c/program.sh
# and web/build.sh are called, which prove and build the rest if it is not current.
# usage: refresh.sh
. "$(dirname -- "$0")/tools.sh"
takes 0 0 "$@"
umask 022

# refuse WHY: ends with nothing written
refuse() {
    echo "refresh.sh: nothing was written: $1" >&2
    exit 1
}

# is_built: whether the program that was built here is of the sources that are here
is_built() {
    [ -x "$here/$built_program" ] && { [ -z "$(newer_source "$built_program" edfvd_program)" ] || is_current; }
}

# fill FOLDER: writes the files to the folder
# shellcheck disable=SC2086
fill() {
    cp "$here/$built_program" "$1/edfvd" && chmod 755 "$1/edfvd" && cp "$here/$built_library" "$here/$built_page" "$1" &&
        mkdir "$1/aarch64" && (cd "$here/c/out" && cp $arm "$1/aarch64") &&
        (cd "$here" && cp LICENSE-APACHE LICENSE-MIT THIRD-PARTY-LICENSES "$1") || return
    {
        echo "kit $(cat "$here/KIT")"
        echo "machine $(uname -m)"
        compilers
        arm_compilers
        optimizer
        for name in $native $page $arm; do
            echo "$name $(digest_of "$name") $(sha256sum <"$1/$name" | sed 's/ .*//')"
        done
    } >"$1/SOURCES" || return
    (cd "$1" && sha256sum $files >SHA256SUMS)
}

[ "$(rt version 2>/dev/null)" = "$(cat "$here/KIT")" ] || refuse 'the toolchain of KIT is not on the PATH'
is_built || refuse "the program is not built from the sources that are here: run $here/edfvd, or rt ci, first"
has_arm || refuse "$arm_cc is not on the PATH"
command -v wasm-opt >/dev/null 2>&1 || refuse 'wasm-opt is not on the PATH'
"$here/c/build.sh" >&2 || refuse 'the library was not built'
{ (unset LD AR OBJCOPY; CC=$arm_cc "$here/c/build.sh") && (unset LD AR OBJCOPY; CC=$arm_cc "$here/c/program.sh"); } >&2 ||
    refuse 'the files for 64-bit ARM were not built'
"$here/web/build.sh" >&2 || refuse 'the page was not built'
work=$(mktemp -d "$here/prebuilt/.new.XXXXXX") || refuse "$here/prebuilt cannot be written"
trap 'rm -rf "$work"' EXIT
trap 'exit 1' HUP INT TERM
fill "$work" || refuse "$work cannot be written"
mkdir -p "$here/prebuilt/aarch64" || exit 1
# shellcheck disable=SC2086
(cd "$work" && for name in $files SHA256SUMS; do mv -f "$name" "../$name" || exit; done) || exit 1
"$here/prebuilt/compare.sh"
