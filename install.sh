#!/bin/sh
# Puts the command edfvd to PREFIX/bin, the proved program that it runs to PREFIX/libexec/edfvd, its manual page to
# PREFIX/share/man/man1/edfvd.1, its completion for bash to PREFIX/share/bash-completion/completions, and the pages and licences to
# PREFIX/share/doc/edfvd. The program is the one that was built here, or else the one in the folder prebuilt, as for ./edfvd. What is
# installed needs glibc 2.34 or later, and neither this folder, nor the wrapper, nor the command rt. The prefix may be moved as a whole.
# The C libraries go to PREFIX/lib, with a file for pkg-config, and their header to PREFIX/include. They are those that c/build.sh made,
# which are refused if they are older than their sources, or else those in the folder prebuilt, if they are of the sources that are here.
# c/build.sh makes the static ones, too; prebuilt has the shared one, and libedfvd_core.a for 64-bit ARM alone. The shared one gets the
# name of its soname, libedfvd.so.N, where N is EDFVD_VERSION of edfvd.h, and libedfvd.so is a link to it for the linker. The page
# edfvd.html, the one that web/build.sh made or else the one in the folder prebuilt, goes to PREFIX/share/doc/edfvd if it is of the
# sources that are here.
# With MACHINE, which is x86_64 or aarch64, what is installed is for that machine: for aarch64, which is 64-bit ARM, the program that
# c/program.sh made, or else the prebuilt one, and the libraries for that machine. The page is for each of them.
# Either everything is installed or nothing is: each file is written beside its place first, and renamed when all of them are there.
# After a fault or a signal everything is as it was before the call; only a call that is killed outright can leave files, whose names
# begin with .edfvd. The modes are 755 and 644, whatever the umask is, for nothing in it is private.
# usage: install.sh PREFIX [MACHINE]
#        as in install.sh ~/.local
set -u
unset CDPATH
umask 022
here=$(dirname -- "$(readlink -f -- "$0")")
. "$here/tools/usage.sh"
. "$here/sources.sh"
. "$here/about.sh"
# The name of the folders in which files are written beside their places, and the folders that this call made, the innermost first.
own=
made=
state=nothing

# refuse WHY [STATUS]: ends with nothing installed
refuse() {
    printf 'install.sh: nothing was installed: %s\n' "$1" >&2
    exit "${2:-1}"
}

# check_program: the program for the machine is there, and not older than its sources. One for this machine that was built here before
# is built again.
check_program() {
    if [ "$machine" != "$(uname -m)" ]; then
        [ "$machine" = aarch64 ] || refuse "there is no program for $machine here, but for x86_64 and aarch64"
        choose_for_arm || refuse "the program for aarch64 is not built: run $here/c/program.sh first"
        return
    fi
    if ! choose && ! [ -x "$here/$built_program" ]; then
        refuse "the program is not built: run $here/edfvd check $here/examples/control/tasks.toml first"
    fi
    if ! "$here/edfvd" check "$here/examples/control/tasks.toml" >/dev/null || ! choose; then
        refuse 'the program was not proved or not built'
    fi
}

# choose_libraries: sets $libraries to the folder with the C libraries for the machine, and $names to those of them that are installed:
# the ones that were built here, which must not be older than their sources, or else the prebuilt ones
choose_libraries() {
    libraries=$here/c/out
    call="$here/c/build.sh"
    if [ "$machine" = aarch64 ]; then
        libraries=$here/c/out/aarch64
        call="CC=aarch64-linux-gnu-gcc $call"
    fi
    if ! [ -e "$libraries/libedfvd.a" ]; then
        choose_prebuilt_libraries
        return
    fi
    names='libedfvd.a libedfvd_core.a libedfvd.so'
    newer=$(find "$here/c/edfvd.h" "$here"/c/*.c "$here/crates" \( -name '*.[hc]' -o -name '*.rt' \) \
        -newer "$libraries/libedfvd.a" -print -quit)
    [ -z "$newer" ] || refuse "the C libraries are older than their sources: run $call first"
}

# choose_prebuilt_libraries: sets $libraries and $names to the prebuilt libraries for the machine. $names is empty if one of them is not
# of the sources that are here.
choose_prebuilt_libraries() {
    folder=
    names=libedfvd.so
    if [ "$machine" = aarch64 ]; then
        folder=aarch64/
        names='libedfvd_core.a libedfvd.so'
    elif ! is_for_machine libedfvd.so; then
        names=
    fi
    libraries=$here/prebuilt/$folder
    for name in $names; do
        is_prebuilt "$folder$name" || names=
    done
}

# add FILE NAME: the file is part of what is installed, under this name below the prefix
add() {
    if ! { { [ -d "$tree/${2%/*}" ] || mkdir -p "$tree/${2%/*}"; } && cp "$1" "$tree/$2"; }; then
        refuse "$1 cannot be copied to $tree/$2"
    fi
}

# page_text FOLDER PAGES: copies a page of this folder from standard input to standard output. A link to a file that is not one of the
# pages would lead nowhere, so only its words are kept.
page_text() {
    awk -v folder="$1" -v pages="$2" '
        function place(target, parts, count, kept, depth, i) {
            count = split((folder == "." ? "" : folder "/") target, parts, "/")
            depth = 0
            for (i = 1; i <= count; i++)
                if (parts[i] == "..") depth--
                else if (parts[i] != ".") parts[++depth] = parts[i]
            kept = parts[1]
            for (i = 2; i <= depth; i++) kept = kept "/" parts[i]
            return depth > 0 ? kept : "outside"
        }
        function leads_out(target) {
            sub(/#.*/, "", target)
            return target != "" && target !~ /[: ]/ && index(" " pages " ", " " place(target) " ") == 0
        }
        # The text up to a link, without the bracket that the words of the link begin with.
        function opened(text, at, depth) {
            for (at = length(text); at > 0; at--) {
                if (substr(text, at, 1) == "]") depth++
                if (substr(text, at, 1) == "[" && depth-- == 0) return substr(text, 1, at - 1) substr(text, at + 1)
            }
            return text
        }
        function write_text(before, rest, end, target) {
            while ((end = index(text, "](")) > 0) {
                before = substr(text, 1, end - 1)
                rest = substr(text, end + 2)
                end = index(rest, ")")
                target = substr(rest, 1, end - 1)
                text = substr(rest, end + 1)
                printf "%s", leads_out(target) ? opened(before) : before "](" target ")"
            }
            printf "%s", text
            text = ""
        }
        /^```/ { write_text(); code = !code; print; next }
        code { print; next }
        { text = text $0 "\n" }
        END { write_text() }
    '
}

# add_pages: adds README, CHANGELOG, SECURITY and docs, whose links lead to one another
add_pages() {
    pages=
    for page in "$here/README.md" "$here/CHANGELOG.md" "$here/SECURITY.md" "$here"/docs/*.md "$here"/docs/*.svg; do
        name=${page#"$here/"}
        # No page has white space in its name; a file that has some is somebody's own.
        case $name in *[[:space:]]*) continue ;; esac
        if [ -e "$page" ]; then pages="$pages $name"; fi
    done
    for page in $pages; do
        case $page in
        *.svg) cp "$here/$page" "$work/page" ;;
        */*) page_text "${page%/*}" "$pages" <"$here/$page" >"$work/page" ;;
        *) page_text . "$pages" <"$here/$page" >"$work/page" ;;
        esac || refuse "$here/$page cannot be copied"
        add "$work/page" "share/doc/edfvd/$page"
    done
}

# add_libraries: adds the C libraries, their header, and a file for pkg-config that names their folders relative to its own, so that
# the whole prefix may be moved
add_libraries() {
    add "$here/c/edfvd.h" include/edfvd.h
    soname=libedfvd.so.$(sed -n 's/^#define EDFVD_VERSION //p' "$here/c/edfvd.h")
    for name in $names; do
        case $name in
        libedfvd.so) add "$libraries/$name" "lib/$soname" ;;
        *) add "$libraries/$name" "lib/$name" ;;
        esac
    done
    ln -s "$soname" "$tree/lib/libedfvd.so" || refuse "$tree/lib/libedfvd.so cannot be made"
    # shellcheck disable=SC2016
    pkg_config '${pcfiledir}/..' '${pcfiledir}/../../include' >"$work/pc" || refuse 'the text of edfvd.pc cannot be made'
    add "$work/pc" lib/pkgconfig/edfvd.pc
}

# release: the text of RELEASE: what about says, and the sha256 of each file. `sha256sum -c share/doc/edfvd/RELEASE` in the prefix
# compares the sums.
release() {
    sed 's/^/# /' "$tree/libexec/edfvd/version.txt" && (cd "$tree" && find . -type f | sed 's|^\./||' | LC_ALL=C sort | xargs sha256sum)
}

# make_tree: puts what is installed into a temporary folder, and lists its files and folders
make_tree() {
    add "$here/man/edfvd.sh" bin/edfvd
    add "$chosen" libexec/edfvd/edfvd
    add "$here/man/help.txt" libexec/edfvd/help.txt
    about "$machine" >"$work/version" || refuse 'the text of the version cannot be made'
    add "$work/version" libexec/edfvd/version.txt
    add "$here/man/edfvd.1" share/man/man1/edfvd.1
    add "$here/man/edfvd.bash" share/bash-completion/completions/edfvd
    for file in LICENSE-APACHE LICENSE-MIT THIRD-PARTY-LICENSES; do
        add "$here/$file" "share/doc/edfvd/$file"
    done
    add_pages
    if choose_page; then add "$chosen" share/doc/edfvd/edfvd.html; fi
    if [ -n "$names" ]; then add_libraries; fi
    if ! { find "$tree" -type f -exec chmod 644 {} + && chmod 755 "$tree/bin/edfvd" "$tree/libexec/edfvd/edfvd"; }; then
        refuse "$tree cannot be written"
    fi
    release >"$work/release" || refuse 'the text of RELEASE cannot be made'
    add "$work/release" share/doc/edfvd/RELEASE
    chmod 644 "$tree/share/doc/edfvd/RELEASE" || refuse "$tree cannot be written"
    (cd "$tree" && find . -type f -o -type l | sed 's|^\./||' | LC_ALL=C sort) >"$work/files"
    sed 's|/[^/]*$||' "$work/files" | LC_ALL=C sort -u >"$work/folders"
}

# make_folder FOLDER: makes it, and what is missing above it
make_folder() {
    [ -d "$1" ] && return
    case $1 in
    */*) [ -z "${1%/*}" ] || make_folder "${1%/*}" ;;
    esac
    mkdir "$1" 2>/dev/null || refuse "the folder $1 cannot be made"
    made="$1
$made"
}

# paths NAME: sets $target to the file's place, $new to the file before it is renamed, and $old to what stood at its place before
paths() {
    target=$prefix/$1
    new=${target%/*}/$own/new/${target##*/}
    old=${target%/*}/$own/old/${target##*/}
}

# write_beside: writes each file beside its place, into new folders whose names cannot be guessed
write_beside() {
    make_folder "$prefix"
    prefix=$(cd -- "$prefix" && pwd) || refuse "$prefix cannot be entered"
    own=$(mktemp -d "$prefix/.edfvd.XXXXXX" 2>/dev/null) || refuse "$prefix cannot be written"
    own=${own##*/}
    while read -r folder; do
        make_folder "$prefix/$folder"
        mkdir -m 700 "$prefix/$folder/$own" 2>/dev/null || refuse "$prefix/$folder cannot be written"
        mkdir "$prefix/$folder/$own/new" "$prefix/$folder/$own/old" || refuse "$prefix/$folder cannot be written"
    done <"$work/folders"
    while read -r name; do
        paths "$name"
        [ ! -d "$target" ] || refuse "$target is a folder"
        cp -P "$tree/$name" "$new" || refuse "$target cannot be written"
    done <"$work/files"
}

# rename_all: renames each file to its place in one step, which works even if the old file is a running program
rename_all() {
    state=renaming
    while read -r name; do
        paths "$name"
        if [ -e "$target" ] || [ -L "$target" ]; then
            ln "$target" "$old" 2>/dev/null || cp -pP "$target" "$old" || refuse "$target cannot be kept"
        fi
        mv -f "$new" "$target" || refuse "$target cannot be replaced"
    done <"$work/files"
    state=installed
}

# undo: for each file that was renamed, puts back what stood at its place before
undo() {
    while read -r name; do
        paths "$name"
        if [ -e "$new" ] || [ -L "$new" ]; then
            continue
        elif [ -e "$old" ] || [ -L "$old" ]; then
            mv -f "$old" "$target"
        else
            rm -f "$target"
        fi
    done <"$work/files"
}

# clean: removes what this call made, except what is installed if it succeeded
clean() {
    trap '' HUP INT TERM
    trap - EXIT
    [ "$state" != renaming ] || undo
    if [ -n "$own" ]; then
        while read -r folder; do rm -rf "${prefix:?}/$folder/$own"; done <"$work/folders"
        rm -rf "${prefix:?}/$own"
    fi
    rm -rf "$work"
    [ "$state" != installed ] || return 0
    printf '%s' "$made" | while IFS= read -r folder; do
        if [ -n "$folder" ]; then rmdir "$folder" 2>/dev/null; fi
    done
}

takes 1 2 "$@"
prefix=$1
machine=${2-$(uname -m)}
[ -n "$prefix" ] || refuse 'the prefix is empty' 2
# Folders are listed by lines.
case $prefix in /*) whole=$prefix ;; *) whole=$PWD/$prefix ;; esac
case $whole in *"
"*) refuse 'the name of the prefix has a line break' 2 ;; esac
if [ -e "$prefix" ] && ! [ -d "$prefix" ]; then
    refuse "$prefix is no folder"
fi
check_program
choose_libraries
work=$(mktemp -d) || refuse 'there is no folder for temporary files'
tree=$work/tree
trap clean EXIT
trap 'refuse "it was interrupted"' HUP INT TERM
make_tree
write_beside
rename_all
clean

# A name may have a backslash, which `echo` of some shells would read.
printf 'installed %s/bin/edfvd and %s/share/man/man1/edfvd.1\n' "$prefix" "$prefix"
if [ -n "$names" ]; then
    printf 'installed %s/include/edfvd.h, %s/lib/pkgconfig/edfvd.pc, and in %s/lib: %s\n' "$prefix" "$prefix" "$prefix" "$names"
fi
printf 'version, commit, kit and checksums are in %s/share/doc/edfvd/RELEASE\n' "$prefix"
case :$PATH: in
    *":$prefix/bin:"*) ;;
    *) printf '%s/bin is not on the PATH\n' "$prefix" ;;
esac
