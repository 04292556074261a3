# shellcheck shell=sh disable=SC2154
# Sourced by scripts that need to know whether a file was built from the sources that are here, as the wrapper edfvd does. They set
# $here to the repository's folder; FILE is a path below that folder. Beside a built FILE stands FILE.sources: one line with the digest
# of the sources that it was built from, and the sha256 of FILE itself. So a file that something else built later is not accepted.
# The programs, the libraries and the page in prebuilt come with the repository: prebuilt/SOURCES has a line with the two digests for
# each of them, and lines with the toolchain and the machine. The NAME of one of them is its path in prebuilt: those for 64-bit ARM are
# in aarch64. The page is one for all machines.
built_program=crates/edfvd_program/out/edfvd_program
built_library=c/out/libedfvd.so
built_page=web/out/edfvd.html

# crate_lines CRATE..: the lines that crates.txt has for these crates and for the crates of this repository below them
crate_lines() {
    awk -F: -v tops="$*" '
        { sub(/#.*/, "") }
        NF { sub(/ .*/, "", $1); name[++names] = $1; uses[$1] = $2 }
        END {
            count = split(tops, top, " ")
            for (i = 1; i <= count; i++) wanted[top[i]] = 1
            do {
                grown = 0
                for (n in wanted) {
                    count = split(uses[n], used, " ")
                    for (i = 1; i <= count; i++)
                        if (used[i] in uses && !(used[i] in wanted)) { wanted[used[i]] = 1; grown = 1 }
                }
            } while (grown)
            for (i = 1; i <= names; i++) if (name[i] in wanted) print name[i] ":" uses[name[i]]
        }
    ' "$here/crates.txt"
}

# source_folders CRATE..: the folders with the code and the definitions of these crates and of those below them. Proofs are left out,
# since a proof that is written in another way makes no other program; the toolchain's version is left out, since what another
# toolchain proves is proved too.
source_folders() {
    crate_lines "$@" | while IFS=: read -r name _; do
        echo "crates/$name/src"
        if [ -d "$here/crates/$name/specs" ]; then echo "crates/$name/specs"; fi
    done
}

# newer_source FILE CRATE..: a source of these crates that is newer than the file, if there is one
newer_source() (
    file=$1
    shift
    cd "$here" || exit
    here=.
    # shellcheck disable=SC2046
    find crates.txt $(source_folders "$@") \( -name '*.rt' -o -name '*.antt' -o -name crates.txt \) -newer "$file" -print -quit
)

# sources_digest CRATE..: a digest of these crates' source files, of the names of the files, and of the crates' lines in crates.txt
sources_digest() {
    (
        cd "$here" || exit
        here=.
        crate_lines "$@"
        # shellcheck disable=SC2046
        find $(source_folders "$@") \( -name '*.rt' -o -name '*.antt' \) -exec sha256sum {} + | LC_ALL=C sort
    ) | sha256sum | sed 's/ .*//'
}

# note_sources FILE DIGEST: notes that the file was built from sources with this digest. Whoever calls it knows the sources before and
# after the build. A program that rt ci built has no note, and is taken if it is newer than its sources.
note_sources() (
    cd "$here" || exit
    echo "$2 $(sha256sum <"$1" | sed 's/ .*//')" >"$1.sources.new" && mv -f "$1.sources.new" "$1.sources"
)

# is_of_sources FILE CRATE..: whether a note says that this very file was built from the sources that these crates have now. A whole
# note has two digests of 64 characters.
is_of_sources() {
    noted=$(cat "$here/$1.sources" 2>/dev/null) || return
    file=$here/$1
    shift
    [ "${#noted}" -eq 129 ] && [ "$noted" = "$(sources_digest "$@") $(sha256sum <"$file" | sed 's/ .*//')" ]
}

# is_current: whether the program that was built here is of the sources that are here, where one of them is newer than it. In a new
# copy of the tree they are newer, and may still be those that it was built from. If they are, the program gets the time of this
# comparison, so that the next call is fast; in a tree that cannot be written every call compares digests.
is_current() {
    looked=
    touch "$here/$built_program.looked" 2>/dev/null && looked=yes
    is_of_sources "$built_program" edfvd_program || return
    if [ -n "$looked" ]; then touch -r "$here/$built_program.looked" "$here/$built_program" 2>/dev/null; fi
    return 0
}

# crates_of NAME: the crates that the program, the library or the page is made of, without those below them
crates_of() {
    case $1 in
    edfvd | */edfvd) echo edfvd_program ;;
    *) echo edfvd_c edfvd_ask_c ;;
    esac
}

# guards NAME: the files besides crates that the program, the library or the page is made of. A change of c/build.sh is rarely one of
# the library, but nobody has to decide which.
guards() (
    cd "$here" || exit
    case $1 in
    edfvd) ;;
    */edfvd) ls c/heap.c c/machine.sh c/program.sh c/system.c ;;
    edfvd.html)
        ls web/build.sh web/*.py web/heap.c web/index.html web/style.css web/src/*.js
        grep -o '[a-z]*/[a-z_]*\.\(toml\|csv\)' web/examples.py | sed 's|^|examples/|' | LC_ALL=C sort -u
        ;;
    *) ls c/*.c c/*.h c/build.sh c/machine.sh ;;
    esac
)

# digest_of NAME: a digest of the sources of the program, the library or the page
digest_of() {
    # shellcheck disable=SC2046
    set -- "$1" "$(sources_digest $(crates_of "$1"))"
    [ "$1" != edfvd ] || { echo "$2"; return; }
    { echo "$2"; guards "$1" | (cd "$here" && LC_ALL=C sort | xargs sha256sum); } | sha256sum | sed 's/ .*//'
}

# is_prebuilt NAME: whether prebuilt/SOURCES says of this very file in prebuilt that it was built from the sources that are here, with
# the toolchain of KIT, with which anybody must be able to build it again
is_prebuilt() (
    notes=$here/prebuilt/SOURCES
    line="$1 $(digest_of "$1") $(sha256sum <"$here/prebuilt/$1" | sed 's/ .*//')"
    [ "${#line}" -eq $((${#1} + 130)) ] && grep -qxF "$line" "$notes" && [ "$(sed -n 's/^kit //p' "$notes")" = "$(cat "$here/KIT")" ]
) 2>/dev/null

# for_machine FILE: the NAME of the program or the library for this machine. Only 64-bit ARM has a folder of its own.
for_machine() {
    case $(uname -m) in
    aarch64) echo "aarch64/$1" ;;
    *) echo "$1" ;;
    esac
}

# is_for_machine NAME: whether prebuilt/SOURCES says that the file is for this machine
is_for_machine() {
    case $1 in
    */*) [ "${1%%/*}" = "$(uname -m)" ] ;;
    *) grep -qxF "machine $(uname -m)" "$here/prebuilt/SOURCES" 2>/dev/null ;;
    esac
}

# was_same NAME: whether nothing changed since prebuilt/NAME was last found to be of the sources that are here. The file
# prebuilt/out/NAME.same has the paths that decide, and was written before they were read. Of these paths, and of what is in the folders
# among them, none may have been written, renamed, made or removed since, by the time that the system keeps of changes (ctime), which
# no copy and no touch sets back. It begins with the
# number of the inode of prebuilt/NAME, which is another one in a copy of the tree: there the times of copied files say nothing.
was_same() {
    (
        cd "$here" && read -r inode paths <"prebuilt/out/$1.same" || exit
        # shellcheck disable=SC2086
        changed=$(find $paths \( -path 'crates/*/*' -o -prune \) \
            \( -cnewer "prebuilt/out/$1.same" -o -path "prebuilt/$1" ! -inum "$inode" \) -print -quit) && [ -z "$changed" ]
    ) 2>/dev/null
}

# is_same NAME: compares the digest of the sources with that of prebuilt/NAME; if they are equal, notes it for was_same. The program
# must also run on this machine: called without words, it has status 2. One for another machine or a newer C library would otherwise
# answer with a status that means something else.
is_same() (
    [ -e "$here/prebuilt/$1" ] && is_for_machine "$1" || exit
    name=$1
    note=$here/prebuilt/out/$name
    trap 'rm -f "$note.$$"' EXIT
    # shellcheck disable=SC2046
    set -- $(crates_of "$name")
    noted=
    {
        mkdir -p "${note%/*}"
        # shellcheck disable=SC2046
        echo "$(find "$here/prebuilt/$name" -printf %i)" crates.txt KIT sources.sh "prebuilt/$name" prebuilt/SOURCES c $(guards "$name") \
            $(crate_lines "$@" | sed 's|:.*||; s|^|crates/|') $(source_folders "$@") >"$note.$$" && noted=yes
    } 2>/dev/null
    is_prebuilt "$name" || exit
    if [ "${name##*/}" = edfvd ]; then
        "$here/prebuilt/$name" >/dev/null 2>&1
        [ $? -eq 2 ] || exit
    fi
    [ -z "$noted" ] || mv -f "$note.$$" "$note.same" 2>/dev/null
    exit 0
)

# choose: sets $chosen to the program of the sources that are here: the one that was built here, or else the prebuilt one. If neither
# is of these sources, $why says why. What was built here comes first: its builder wants to try it.
# shellcheck disable=SC2034
choose() {
    chosen=$here/$built_program
    [ -x "$chosen" ] && [ -z "$(newer_source "$built_program" edfvd_program)" ] && return
    prebuilt=$(for_machine edfvd)
    if was_same "$prebuilt"; then
        chosen=$here/prebuilt/$prebuilt
        return
    fi
    why='not built'
    if [ -x "$chosen" ]; then
        is_current && return
        why='older than its sources'
    fi
    is_same "$prebuilt" || return
    chosen=$here/prebuilt/$prebuilt
}

# is_noted FILE NAME: whether the file beside it notes that the file was made of the sources that NAME has now
is_noted() {
    [ -e "$1" ] && [ "$(cat "$1.sources" 2>/dev/null)" = "$(digest_of "$2") $(sha256sum <"$1" | sed 's/ .*//')" ]
}

# choose_for_arm: sets $chosen to the program for 64-bit ARM of the sources that are here: the one that c/program.sh built, or else the
# prebuilt one. The status is 1 if neither is of these sources.
choose_for_arm() {
    chosen=$here/c/out/aarch64/edfvd
    is_noted "$chosen" aarch64/edfvd && return
    chosen=$here/prebuilt/aarch64/edfvd
    is_prebuilt aarch64/edfvd
}

# choose_library: sets $chosen to the shared library of the sources that are here: the one that c/build.sh built, or else the prebuilt
# one. The status is 1 if neither is of these sources.
choose_library() {
    chosen=$here/$built_library
    is_noted "$chosen" libedfvd.so && return
    prebuilt=$(for_machine libedfvd.so)
    chosen=$here/prebuilt/$prebuilt
    was_same "$prebuilt" || is_same "$prebuilt"
}

# choose_page: sets $chosen to the page of the sources that are here: the one that web/build.sh built, or else the prebuilt one. The
# status is 1 if neither is of these sources.
choose_page() {
    chosen=$here/$built_page
    is_noted "$chosen" edfvd.html && return
    chosen=$here/prebuilt/edfvd.html
    is_prebuilt edfvd.html
}
