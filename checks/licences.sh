#!/bin/sh
# Checks that THIRD-PARTY-LICENSES has a heading for each crate of the toolchain that the program, the C libraries and the page are made
# of, and, where the toolchain of the file KIT is on the PATH, that it is what the licence files there say. It needs no built program.
# usage: licences.sh [mend]
#        with the word, writes the file from the toolchain on the PATH
. "$(dirname -- "$0")/../tools/usage.sh"
takes 0 1 "$@"
[ "${1-mend}" = mend ] || wrong_words
unset CDPATH
cd "$(dirname -- "$0")/.." || exit 1
here=$PWD
. ./sources.sh
work=$(mktemp -d) || exit 1
trap 'rm -rf "$work"' EXIT
trap 'exit 1' HUP INT TERM
built='edfvd_program edfvd_c edfvd_ask_c'
file=THIRD-PARTY-LICENSES
kit=
if rt=$(command -v rt); then kit=$(dirname "$(dirname "$(readlink -f "$rt")")"); fi

# named: the crates of the toolchain that crates.txt names for what is built
named() {
    sed 's/#.*//; s/[: ].*//; /^$/d' crates.txt >"$work/own"
    # shellcheck disable=SC2086
    crate_lines $built | sed 's/.*://' | tr ' ' '\n' | sed '/^$/d' | sort -u | grep -vxF -f "$work/own"
}

# linked: the crates of the toolchain that are linked into what is built: those that are named, std, and what they use
linked() {
    { named; echo std; } | sort -u >"$work/next"
    : >"$work/linked"
    while ! cmp -s "$work/next" "$work/linked"; do
        mv "$work/next" "$work/linked"
        { cat "$work/linked"; sed "s|.*|$kit/rlibs/&.rlib/format|" "$work/linked" | xargs sed -n 's/^dep //p'; } | sort -u >"$work/next"
    done
    cat "$work/linked"
}

# notice FILE: the text of a licence file, as it is
notice() {
    printf '\n'
    sed 's/[ 	]*$//' "$kit/rattle/$1"
}

# notices CRATE: what the toolchain says of a crate's licence. MIT is taken where a crate has both licences.
notices() {
    printf '\n## %s\n' "$1"
    if [ -e "$kit/rattle/$1/LICENSE-MIT" ]; then
        notice "$1/LICENSE-MIT"
    elif ls "$kit/rattle/$1"/LICENSE* >/dev/null 2>&1; then
        for licence in "$kit/rattle/$1"/LICENSE*; do notice "${licence#"$kit/rattle/"}"; done
    else
        printf '\nA part of the toolchain, which has no licence file for it.\n'
    fi
    [ "$1" = core ] || return 0
    cat <<'TEXT'

Its reader of floats follows the Rust crate `fast-float2`, under the licence of fast_float below. Its search of texts follows the Rust
crate `memchr`, which is in the public domain by the Unlicense. Its tables of characters are Unicode data:
TEXT
    notice unicode/LICENSE-UNICODE
}

# whole: the text of the file
whole() {
    cat <<'TEXT'
# Licences of what is linked into edfvd

The program `edfvd`, its C libraries and the page `edfvd.html` are built from the code of this repository, under the MIT licence or the
Apache licence 2.0, and from the crates of the Rattle toolchain that are named below. Many of these are ports of Rust crates of the same name. Of a
crate that has both the MIT and the Apache licence, the MIT licence is used and printed here.

The program also has the start files of the C library and of the compiler. Those of glibc (`Scrt1.o`, `crti.o`, `crtn.o`,
`libc_nonshared.a`) are under the LGPL 2.1 or later, with the permission to distribute programs that are linked with them without
any restriction from their use. Those of GCC (`crtbeginS.o`, `crtendS.o`, `libgcc.a`) are under the GPL 3 with the GCC Runtime
Library Exception, which allows the same. The C library itself is not part of the program: it is loaded when the program starts.

The page has none of these files. It has the code of `rattle-link` for numbers of 128 bits in WebAssembly, a part of the toolchain,
which has no licence file for it. Of binaryen, whose `wasm-opt` transforms the module, nothing is linked into the page.

Written by `licences.sh mend` in the repository.
TEXT
    for crate in $(linked); do notices "$crate"; done
}

if [ -n "$kit" ]; then whole >"$work/whole" || exit 1; fi
if [ "${1:-}" = mend ]; then
    [ -n "$kit" ] || { echo 'licences.sh: no toolchain is on the PATH' >&2; exit 1; }
    cp "$work/whole" "$file" || exit 1
fi
failed=0
for crate in $(named) std; do
    if ! grep -qx "## $crate" "$file"; then
        echo "licences: $file has no heading for $crate"
        failed=$((failed + 1))
    fi
done
if [ -z "$kit" ] || [ "$(rt version 2>/dev/null)" != "$(cat KIT)" ]; then
    echo 'licences: not compared with a toolchain, since that of KIT is not on the PATH' >&2
elif ! cmp -s "$work/whole" "$file"; then
    echo "licences: $file is not what the toolchain's licence files say; licences.sh mend writes it"
    failed=$((failed + 1))
fi
echo "licences: $(grep -c '^## ' "$file") crates, $failed faults"
[ "$failed" -eq 0 ]
