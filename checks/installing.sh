#!/bin/sh
# Tries install.sh in a copy of the tree: which files it installs, and their modes under three umasks; that it takes prebuilt libraries
# of its own sources alone, and those that were built here first; that a call which fails or is interrupted leaves everything as it was,
# with its modes, owners, times and links; that it never writes through a link; and that the links of installed pages lead to installed
# files. Whose the files are is tried by root alone, who can give them away.
# usage: installing.sh
. "$(dirname -- "$0")/../tools/usage.sh"
takes 0 0 "$@"
cd "$(dirname -- "$0")/../examples" || exit 1
. ../checks/copied_tree.sh
released=share/doc/edfvd/RELEASE

# files FOLDER: the files, folders and links in it with their modes, owners, sums and what the links lead to, without the folder's own name
files() {
    (cd "$1" && find . -printf '%m %y %U:%G %p %l\n' | sort -k 4 && find . -type f -exec sha256sum {} + | sort -k 2)
}

# kept FOLDER: that, and when each file was written
kept() {
    files "$1" && (cd "$1" && find . -type f -printf '%T@ %p\n' | sort -k 2)
}

# is_root: whether files can be given to another user
is_root() {
    [ "$(id -u)" -eq 0 ]
}

# fails SAYS TOOLS COMMAND..: the command, which calls install.sh, ends with status 1 and this line on standard error
fails() {
    says=$1
    tools=$2
    shift 2
    tries 1 "$work/empty" "install.sh: nothing was installed: $says" "$tools" "$@"
    holds 'one line says so' [ "$(wc -l <"$work/err")" -eq 1 ]
}

refused() {
    fails 'the program is not built: run' "$alone" "$tree/install.sh" "$work/prefix"
    put_program
    tries 2 "$work/empty" 'usage: install.sh PREFIX' "$alone" "$tree/install.sh"
    tries 2 "$work/empty" 'the prefix is empty' "$alone" "$tree/install.sh" ''
    two_lines="$work/two
lines"
    tries 2 "$work/empty" 'the name of the prefix has a line break' "$alone" "$tree/install.sh" "$two_lines"
    mkdir "$two_lines"
    # shellcheck disable=SC2016
    tries 2 "$work/empty" 'the name of the prefix has a line break' "$alone" \
        sh -c 'cd "$1" && exec "$2" prefix' sh "$two_lines" "$tree/install.sh"
    holds 'nothing is made in a folder whose name has a line break' rmdir "$two_lines"
    fails "$tasks is no folder" "$alone" "$tree/install.sh" "$tasks"
}

# What is installed under each umask is the same, in folders of mode 755.
installed() {
    printf '%s\n' "installed $work/prefix/bin/edfvd and $work/prefix/share/man/man1/edfvd.1" \
        "version, commit, kit and checksums are in $work/prefix/$released" "$work/prefix/bin is not on the PATH" >"$work/installed"
    for mask in 077 027 022; do
        rm -rf "$work/prefix"
        umask "$mask"
        tries 0 "$work/installed" '' "$alone" "$tree/install.sh" "$work/prefix"
        umask 022
        files "$work/prefix" >"$work/files_$mask"
        find "$work/prefix" -type d ! -perm 755 -o -type f \( -path '*/bin/edfvd' -o -path '*/edfvd/edfvd' \) ! -perm 755 -o \
            -type f ! -path '*/bin/edfvd' ! -path '*/edfvd/edfvd' ! -perm 644 >"$work/out"
        judge 0 0 "$work/empty" "the modes under umask $mask"
    done
    holds 'umask 077 and 022' cmp "$work/files_077" "$work/files_022"
    holds 'umask 027 and 022' cmp "$work/files_027" "$work/files_022"
    holds 'the page' cmp ../man/edfvd.1 "$work/prefix/share/man/man1/edfvd.1"
    for file in LICENSE-MIT LICENSE-APACHE THIRD-PARTY-LICENSES; do
        holds 'the licences' cmp "../$file" "$work/prefix/share/doc/edfvd/$file"
    done
    tries 0 control/check.txt '' "$alone" "$work/prefix/bin/edfvd" check "$tasks"
    # On a PATH with the folder nothing says that it is not there.
    sed '$d' "$work/installed" >"$work/on_path"
    tries 0 "$work/on_path" '' "$alone:$work/prefix/bin" "$tree/install.sh" "$work/prefix/../prefix/"
}

# RELEASE has the version of the newest heading of CHANGELOG.md, the kit and what the program needs, and the sum of each file.
release() {
    sed -n '/^## /{ s/^## Since \(.*\)/# edfvd \1+changes/; s/^## \([0-9.]*\).*/# edfvd \1/; p; q; }' ../CHANGELOG.md >"$work/head"
    printf '# commit unknown\n# kit %s\n# needs Linux on %s, with glibc 2.34 or later\n' "$(cat ../KIT)" "$(uname -m)" >>"$work/head"
    grep '^#' "$work/prefix/$released" >"$work/out"
    judge 0 0 "$work/head" 'RELEASE'
    (cd "$work/prefix" && find . -type f ! -name RELEASE | sed 's|^\./||' | LC_ALL=C sort) >"$work/names"
    sed -n 's/^[0-9a-f]\{64\}  //p' "$work/prefix/$released" >"$work/out"
    judge 0 0 "$work/names" 'the files that RELEASE names'
    holds 'the checksums' sums_hold "$work/prefix" "$released"
    cp -R "$work/prefix" "$work/changed"
    echo >>"$work/changed/share/man/man1/edfvd.1"
    if sums_hold "$work/changed" "$released" 2>/dev/null; then failed=$((failed + 1)); echo 'a changed file is not found'; fi
    # The glibc that RELEASE names is the newest that the program and the libraries ask for.
    if ! command -v objdump >/dev/null 2>&1 || ! objdump -T "$program" >"$work/symbols" 2>/dev/null; then
        echo 'installing: the version of glibc is not compared, there is no objdump or no program for it'
        return
    fi
    objdump -T ../c/out/libedfvd.so >>"$work/symbols" 2>/dev/null
    sed -n 's/.*GLIBC_\([0-9.]*\).*/\1/p' "$work/symbols" | sort -t . -k 1,1n -k 2,2n | tail -n 1 >"$work/out"
    judge 0 0 "$(says 2.34)" 'the newest glibc that is asked for'
}

# links PAGE: the files that the links of a page lead to, and the names of pages in its text
links() {
    grep -oE '\]\([^)]*\)|(src|href)="[^"]*"' "$1" | sed 's/^[^("]*[("]//; s/[)"].*//; s/#.*//' | grep -v '^$\|^[a-z]*:'
}

# Each link of an installed page leads to an installed file, and each page that the manual page names is installed.
pages() {
    doc=$work/prefix/share/doc/edfvd
    find "$doc" -name '*.md' >"$work/pages"
    while read -r page; do
        links "$page" | while read -r target; do
            [ -e "${page%/*}/$target" ] || echo "$page leads to $target"
        done
    done <"$work/pages" >"$work/out"
    judge 0 0 "$work/empty" 'the links of the installed pages'
    holds 'there are links' [ "$(links "$doc/README.md" | wc -l)" -ge 5 ]
    sed -n '/SEE ALSO/,$p' ../man/edfvd.1 | grep -o '[A-Z-]*\.md' >"$work/names"
    holds 'the manual page names pages' [ -s "$work/names" ]
    while read -r page; do holds "the manual page names $page" [ -e "$doc/docs/$page" ]; done <"$work/names"
}

# Links that lead out lose their brackets alone; links to pages, to places in a page and to the web stay, and so does code.
links_that_lead_out() {
    cat >"$tree/docs/MORE.md" <<'END'
# More [here](MORE.md) and [there](../README.md#part), [in](#it)

A [clause, `a[1]`](../crates/mc_task/src/set.rt#L3), [words that
go on](../examples/control/) and [outside](../../x.md); [web](https://example.org/a.md).
Code as `a[1](2.5)` is read as a link. ![A picture](overrun.svg) [1](./COMMANDS.md)

```
a[b](../crates/c.rt)
```
[the last](../crates.txt)
END
    cat >"$work/more" <<'END'
# More [here](MORE.md) and [there](../README.md#part), [in](#it)

A clause, `a[1]`, words that
go on and outside; [web](https://example.org/a.md).
Code as `a1` is read as a link. ![A picture](overrun.svg) [1](./COMMANDS.md)

```
a[b](../crates/c.rt)
```
the last
END
    : >"$tree/docs/my own.md"
    : >"$tree/docs/my
own.md"
    tries 0 "$work/installed" '' "$alone" "$tree/install.sh" "$work/prefix"
    holds "a file of one's own is not installed" [ -z "$(find "$work/prefix" -name '*own*')" ]
    cp "$work/prefix/share/doc/edfvd/docs/MORE.md" "$work/out"
    judge 0 0 "$work/more" 'a page with links that lead out'
    rm "$tree/docs/MORE.md" "$tree/docs/my"*own.md "$work/prefix/share/doc/edfvd/docs/MORE.md"
}

# says_libraries PREFIX NAMES: the file with what a call writes that installs these libraries to the prefix
says_libraries() {
    sed "s|$work/prefix|$1|g; 1a installed $1/include/edfvd.h, $1/lib/pkgconfig/edfvd.pc, and in $1/lib: $2" "$work/installed"
}

# takes_prebuilt PREFIX FOLDER NAMES [MACHINE]: a call installs these libraries of this folder of prebuilt, and no others
takes_prebuilt() {
    where=$1
    folder=$2
    names=$3
    shift 3
    says_libraries "$where" "$names" >"$work/wanted"
    tries 0 "$work/wanted" '' "$alone" "$tree/install.sh" "$where" "$@"
    holds 'the header beside a prebuilt library' cmp "$where/include/edfvd.h" ../c/edfvd.h
    for name in $names; do
        holds "the prebuilt $folder$name" [ "$(cat "$where/lib/$name")" = "prebuilt $folder$name" ]
    done
    {
        printf '644 f %s \n' include/edfvd.h "lib/$soname" lib/pkgconfig/edfvd.pc
        printf '777 l lib/libedfvd.so %s\n' "$soname"
        for name in $names; do [ "$name" = libedfvd.so ] || echo "644 f lib/$name "; done
    } | sort -k 3 >"$work/wanted"
    (cd "$where" && find include lib ! -type d -printf '%m %y %p %l\n' | sort -k 3) >"$work/out"
    judge 0 0 "$work/wanted" "the libraries that are installed in $where"
    holds 'the checksums with prebuilt libraries' sums_hold "$where" "$released"
}

# takes_none WHEN [MACHINE]: a call installs no library and no header, and all else
takes_none() {
    when=$1
    shift
    rm -rf "$work/none"
    sed "s|$work/prefix|$work/none|g" "$work/installed" >"$work/wanted"
    tries 0 "$work/wanted" '' "$alone" "$tree/install.sh" "$work/none" "$@"
    holds "no library, $when" [ ! -e "$work/none/lib" ]
    holds "no header, $when" [ ! -e "$work/none/include" ]
}

# The prebuilt libraries are installed if all of them are of the sources that are here, and those for the machine alone.
prebuilt_libraries() {
    if [ "$(uname -m)" != x86_64 ]; then
        echo 'installing: the prebuilt libraries are left out, this is not x86-64'
        return
    fi
    soname=libedfvd.so.$(sed -n 's/^#define EDFVD_VERSION //p' ../c/edfvd.h)
    prebuilt='libedfvd.so aarch64/edfvd aarch64/libedfvd.so aarch64/libedfvd_core.a'
    # shellcheck disable=SC2086
    put_prebuilt $prebuilt
    takes_prebuilt "$work/with_shared" '' libedfvd.so
    takes_prebuilt "$work/with_arm" aarch64/ 'libedfvd_core.a libedfvd.so' aarch64
    for file in prebuilt/aarch64/libedfvd_core.a prebuilt/aarch64/libedfvd.so prebuilt/libedfvd.so c/edfvd.c c/edfvd.h KIT \
        crates/edfvd_ask_c/src/lib.rt; do
        cp -p "$tree/$file" "$work/kept"
        echo '// more' >>"$tree/$file"
        case $file in
        prebuilt/aarch64/*) takes_none "after a change of $file" aarch64 ;;
        c/edfvd.c)
            takes_none "after a change of $file" aarch64
            takes_none "after a change of $file"
            ;;
        *) takes_none "after a change of $file" ;;
        esac
        cp -p "$work/kept" "$tree/$file"
    done
    sed -i '/^machine /s/ .*/ pdp11/' "$tree/prebuilt/SOURCES"
    takes_none 'of another machine'
    rm "$tree/prebuilt/SOURCES"
    takes_none 'without notes'
    rm -r "$tree/prebuilt" "$tree/c"
}

# The C libraries are installed if they are there, and none that is older than its sources.
libraries() {
    put_libraries
    says_libraries "$work/prefix" 'libedfvd.a libedfvd_core.a libedfvd.so' >"$work/all"
    tries 0 "$work/all" '' "$alone" "$tree/install.sh" "$work/prefix"
    holds 'the header' cmp "$work/prefix/include/edfvd.h" ../c/edfvd.h
    for file in libedfvd.a libedfvd_core.a libedfvd.so; do
        holds "$file" [ "$(cat "$work/prefix/lib/$file")" = "$file" ]
    done
    # The shared library has the name of its soname, and the linker's name for it is a link to it, in a prefix that was moved, too.
    soname=libedfvd.so.$(sed -n 's/^#define EDFVD_VERSION //p' ../c/edfvd.h)
    holds 'the link libedfvd.so' [ "$(readlink "$work/prefix/lib/libedfvd.so")" = "$soname" ]
    holds "$soname is a file" [ -f "$work/prefix/lib/$soname" ] && holds "$soname is no link" [ ! -L "$work/prefix/lib/$soname" ]
    # A library of an older version stays for the programs that were linked with it, and a file that libedfvd.so was is replaced.
    cp "$work/prefix/lib/$soname" "$work/prefix/lib/libedfvd.so.1"
    rm "$work/prefix/lib/libedfvd.so"
    echo old >"$work/prefix/lib/libedfvd.so"
    tries 0 "$work/all" '' "$alone" "$tree/install.sh" "$work/prefix"
    holds 'the link libedfvd.so, again' [ "$(readlink "$work/prefix/lib/libedfvd.so")" = "$soname" ]
    holds 'libedfvd.so.1' rm "$work/prefix/lib/libedfvd.so.1"
    cat >"$work/wanted" <<END
libdir=\${pcfiledir}/..
includedir=\${pcfiledir}/../../include

Name: edfvd
Description: EDF-VD task sets tested, traces judged, and a scheduler driven event by event
Version: $(sed -n 's/^version: //p' ../CITATION.cff)
Libs: -L\${libdir} -ledfvd
Cflags: -I\${includedir}
END
    cp "$work/prefix/lib/pkgconfig/edfvd.pc" "$work/out"
    judge 0 0 "$work/wanted" 'edfvd.pc'
    find "$work/prefix" -name '.edfvd*' >"$work/out"
    judge 0 0 "$work/empty" 'files that are left'
    touch "$tree/c/edfvd.h"
    fails 'the C libraries are older than their sources: run' "$alone" "$tree/install.sh" "$work/older"
    # Those that were built here come before prebuilt ones, also if they are older than their sources.
    put_prebuilt libedfvd.so
    fails 'the C libraries are older than their sources: run' "$alone" "$tree/install.sh" "$work/older"
    touch "$tree/c/out/libedfvd.a"
    tries 0 "$work/all" '' "$alone" "$tree/install.sh" "$work/prefix"
    holds 'the built library before the prebuilt one' [ "$(cat "$work/prefix/lib/libedfvd.so")" = libedfvd.so ]
    rm -r "$tree/prebuilt"
}

# installs_arm: what is installed is the stand-ins, and RELEASE names the machine
installs_arm() {
    sed "s|$work/prefix|$work/arm|g" "$work/all" >"$work/wanted"
    tries 0 "$work/wanted" '' "$alone" "$tree/install.sh" "$work/arm" aarch64
    for file in libexec/edfvd/edfvd lib/libedfvd.a lib/libedfvd_core.a lib/libedfvd.so; do
        holds "$file" [ "$(cat "$work/arm/$file")" = "${file##*/} for ARM" ]
    done
    holds 'the mode of the program for ARM' [ "$(find "$work/arm/libexec/edfvd/edfvd" -printf %m)" = 755 ]
    for file in "$released" libexec/edfvd/version.txt; do
        holds "the machine in $file" grep -q '^\(# \)*needs Linux on aarch64, with glibc 2.34 or later$' "$work/arm/$file"
    done
    holds 'the checksums for ARM' sums_hold "$work/arm" "$released"
}

# With a second word what is installed is for that machine, and never for another.
for_another_machine() {
    fails 'there is no program for sparc64 here, but for x86_64 and aarch64' "$alone" "$tree/install.sh" "$work/arm" sparc64
    holds 'nothing is installed for sparc64' [ ! -e "$work/arm" ]
    if [ "$(uname -m)" != x86_64 ]; then
        echo 'installing: 64-bit ARM as another machine is left out, this is not x86-64'
        return
    fi
    cp -R "$tree/c" "$work/c"
    fails "the program for aarch64 is not built: run $tree/c/program.sh first" "$alone" "$tree/install.sh" "$work/arm" aarch64
    put_arm
    installs_arm
    tries 0 "$work/all" '' "$alone" "$tree/install.sh" "$work/prefix" x86_64
    echo more >>"$tree/c/out/aarch64/edfvd"
    fails "the program for aarch64 is not built: run $tree/c/program.sh first" "$alone" "$tree/install.sh" "$work/arm" aarch64
    put_arm
    touch -d '1 hour ago' "$tree/c/out/aarch64/libedfvd.a"
    fails "the C libraries are older than their sources: run CC=aarch64-linux-gnu-gcc $tree/c/build.sh first" "$alone" \
        "$tree/install.sh" "$work/arm" aarch64
    rm "$tree/c/out/aarch64/"lib*
    echo '// more' >>"$tree/crates/mc_task/src/task.rt"
    fails "the program for aarch64 is not built: run $tree/c/program.sh first" "$alone" "$tree/install.sh" "$work/arm" aarch64
    cp ../crates/mc_task/src/task.rt "$tree/crates/mc_task/src"
    put_program
    echo '/* more */' >>"$tree/c/system.c"
    fails "the program for aarch64 is not built: run $tree/c/program.sh first" "$alone" "$tree/install.sh" "$work/arm" aarch64
    # The prebuilt one, if SOURCES says that it is of these sources.
    rm -r "$tree/c" "$work/arm"
    cp -R "$work/c" "$tree/c"
    cp ../c/*.c ../c/*.sh "$tree/c"
    touch "$tree/c/out"/*
    mkdir -p "$tree/prebuilt/aarch64"
    echo 'edfvd for ARM' >"$tree/prebuilt/aarch64/edfvd"
    # shellcheck disable=SC2016
    here=$tree sh -c '. "$here/sources.sh"; echo "kit $(cat "$here/KIT")"; echo "aarch64/edfvd $(digest_of aarch64/edfvd) $(
        sha256sum <"$here/prebuilt/aarch64/edfvd" | sed "s/ .*//")"' >"$tree/prebuilt/SOURCES"
    bounded env PATH="$alone" "$tree/install.sh" "$work/arm" aarch64 >"$work/out" 2>"$work/err"
    holds 'the prebuilt program for ARM' [ "$(cat "$work/arm/libexec/edfvd/edfvd")" = 'edfvd for ARM' ]
    holds 'no library of another machine' [ ! -e "$work/arm/lib" ]
    echo more >>"$tree/prebuilt/aarch64/edfvd"
    fails "the program for aarch64 is not built: run $tree/c/program.sh first" "$alone" "$tree/install.sh" "$work/arm" aarch64
    rm -r "$tree/prebuilt"
}

# The page in one file is installed if it is of these sources, and no other.
page_in_browser() {
    put_page
    tries 0 "$work/all" '' "$alone" "$tree/install.sh" "$work/prefix"
    holds 'the page in one file' cmp "$work/prefix/share/doc/edfvd/edfvd.html" "$tree/web/out/edfvd.html"
    holds 'its sum' sums_hold "$work/prefix" "$released"
    if [ "$(uname -m)" = x86_64 ]; then
        put_arm
        bounded env PATH="$alone" "$tree/install.sh" "$work/arm" aarch64 >"$work/text" 2>"$work/err"
        holds 'the page beside what is for ARM' cmp "$work/arm/share/doc/edfvd/edfvd.html" "$tree/web/out/edfvd.html"
        rm -r "$tree/c/out/aarch64"
    fi
    for file in web/out/edfvd.html web/src/page.js web/heap.c examples/overrun/work.csv crates/edfvd_ask_c/src/lib.rt; do
        cp -p "$tree/$file" "$work/kept"
        echo '// more' >>"$tree/$file"
        if [ "$file" = crates/edfvd_ask_c/src/lib.rt ]; then touch "$tree/c/out/libedfvd.a"; fi
        bounded env PATH="$alone" "$tree/install.sh" "$work/other" >"$work/text" 2>"$work/err"
        holds "install.sh after a change of $file" [ $? -eq 0 ]
        holds "no page after a change of $file" [ ! -e "$work/other/share/doc/edfvd/edfvd.html" ]
        cp -p "$work/kept" "$tree/$file"
    done
    rm -r "$tree/web"
    rm "$work/prefix/share/doc/edfvd/edfvd.html"
    tries 0 "$work/all" '' "$alone" "$tree/install.sh" "$work/prefix"
}

# A relative prefix is one of the caller's folder, whatever CDPATH says, and a name may have blanks.
names() {
    mkdir -p "$work/caller's folder" "$work/elsewhere/a prefix/b"
    for name in 'a prefix/b' plain 'a\nb\c'; do
        (cd "$work/caller's folder" && CDPATH=$work/elsewhere bounded env PATH="$alone" "$tree/install.sh" "$name") >"$work/text" 2>"$work/err"
        head -n 1 "$work/text" >"$work/out"
        where=$work/"caller's folder"/$name
        judge 0 0 "$(says "installed $where/bin/edfvd and $where/share/man/man1/edfvd.1")" "install.sh $name"
        files "$where" >"$work/out"
        files "$work/prefix" >"$work/wanted"
        judge 0 0 "$work/wanted" "what is installed in $name"
    done
    find "$work/elsewhere" -type f >"$work/out"
    judge 0 0 "$work/empty" 'what is installed where CDPATH leads'
}

# Links that stand at names which a call could be guessed to write, before it is called, lead nowhere.
planted() {
    cp -R "$work/prefix" "$work/planted"
    echo untouched >"$work/victim"
    # shellcheck disable=SC2016
    bounded env PATH="$alone" prefix="$work/planted" victim="$work/victim" install="$tree/install.sh" sh -c '
        for name in bin/edfvd share/man/man1/edfvd.1 share/doc/edfvd/README.md share/doc/edfvd/RELEASE lib/libedfvd.so; do
            ln -s "$victim" "$prefix/$name.new.$$"
        done
        ln -s "$victim" "$prefix/share/doc/edfvd/.pc.$$"
        ln -s "$victim" "$prefix/share/doc/edfvd/.release.$$"
        rm "$prefix/bin/edfvd"
        ln -s "$victim" "$prefix/bin/edfvd"
        exec "$install" "$prefix"
    ' >/dev/null 2>"$work/err"
    judge 0 $? "$work/out" 'install.sh beside planted links'
    holds 'what the links lead to' cmp "$work/victim" "$(says untouched)"
    holds 'a link in the place of the program is replaced' cmp "$work/planted/bin/edfvd" ../man/edfvd.sh
    find "$work/planted" -type l -lname "$work/victim" -exec rm {} +
    files "$work/planted" >"$work/out"
    judge 0 0 "$work/files_all" 'what is installed beside planted links'
}

# What is installed is the caller's, whosever the tree is, and so is what replaces another user's file.
owned() {
    is_root || return 0
    chown -R 60606:60606 "$tree/man" "$tree/docs" "$tree/LICENSE-MIT" "$tree/c" "$built"
    cp -R "$work/prefix" "$work/owned"
    chown 60606:60606 "$work/owned/bin/edfvd" "$work/owned/share/doc/edfvd/LICENSE-MIT"
    for where in owned new_owned; do
        holds "install.sh from another user's tree to $where" bounded env PATH="$alone" "$tree/install.sh" "$work/$where"
        find "$work/$where" ! -user root -o ! -group root >"$work/out"
        judge 0 0 "$work/empty" "what is another user's in $where"
    done
    chown -R root:root "$tree"
}

# stopped SAYS: the call with the tool of $work/stopped fails with these words, and nothing changes: neither where nothing stood nor
# where other files stood
stopped() {
    : >"$work/calls"
    fails "$1" "$work/stopped:$alone" "$tree/install.sh" "$work/new/prefix"
    holds "nothing is new where nothing stood, $2" [ ! -e "$work/new" ]
    : >"$work/calls"
    fails "$1" "$work/stopped:$alone" "$tree/install.sh" "$work/old"
    kept "$work/old" >"$work/out"
    judge 0 0 "$work/files_old" "what stood there before, $2"
    : >"$work/calls"
    fails "$1" "$work/stopped:$alone" "$tree/install.sh" "$work/new\nprefix"
    holds "nothing is new at a name with a backslash, $2" [ ! -e "$work/new\nprefix" ]
}

# A call is interrupted or fails while it copies to the temporary folder, while it writes beside the places, and while it renames: at
# the first file, at the last one, and between; the last also where no file can have two names. Among the files that stood there are a
# link that leads nowhere, one to another file, and one that is another user's.
interrupted() {
    cp -R "$work/prefix" "$work/old"
    find "$work/old" -type f -exec sh -c 'echo old >>"$1"' sh {} \;
    find "$work/old" -type f -exec touch -d '2 days ago' {} +
    rm "$work/old/share/doc/edfvd/RELEASE"
    echo mine >"$work/old/bin/mine"
    chmod 600 "$work/old/bin/edfvd"
    ln -sf nowhere "$work/old/share/man/man1/edfvd.1"
    ln -sf ../../../bin/mine "$work/old/share/doc/edfvd/LICENSE-MIT"
    if is_root; then chown 60606:60606 "$work/old/share/doc/edfvd/LICENSE-APACHE"; fi
    kept "$work/old" >"$work/files_old"
    # Each file is copied twice and renamed once; a link of what is installed is made, copied once and renamed once.
    count=$(find "$work/prefix" -type f | wc -l)
    all=$(find "$work/prefix" -type f -o -type l | wc -l)
    # Each line is a tool, the number of its call at which the signal comes, and the signal.
    while read -r tool number signal; do
        stand_in "$tool" "$number" "$signal"
        stopped 'it was interrupted' "$signal at call $number of $tool"
    done <<END
cp 1 INT
cp $((count + 1)) INT
cp $((count + all)) TERM
mv 1 INT
mv 2 TERM
mv $all INT
END
    while read -r tool number; do
        stand_in "$tool" "$number" 0
        stopped '' "$tool fails at call $number"
    done <<END
cp $((count - 1))
cp $((count + all - 1))
mv $((all - 1))
mv $all
END
    # A second name of a file cannot be made, and a link that leads to one can.
    printf '#!/bin/sh\n[ "$1" = -s ] || exit 1\nexec %s "$@"\n' "$work/tools/ln" >"$work/stopped/ln"
    chmod +x "$work/stopped/ln"
    stopped '' "mv fails at call $all, and ln always"
    rm "$work/stopped/mv"
    holds 'install.sh where no file can have two names' bounded env PATH="$work/stopped:$alone" "$tree/install.sh" "$work/old"
    rm "$work/old/bin/mine"
    files "$work/old" >"$work/out"
    judge 0 0 "$work/files_all" 'what is installed there'
}

# A folder stands at the place of a file, or a file at that of a folder.
in_the_way() {
    for name in bin/edfvd share/doc/edfvd/RELEASE share/man/man1/edfvd.1; do
        rm -rf "$work/way"
        mkdir -p "$work/way/$name"
        files "$work/way" >"$work/files_way"
        fails "$work/way/$name is a folder" "$alone" "$tree/install.sh" "$work/way"
        files "$work/way" >"$work/out"
        judge 0 0 "$work/files_way" "what stood beside the folder $name"
    done
    for name in bin share/doc/edfvd/docs; do
        rm -rf "$work/way"
        mkdir -p "$work/way/$name"
        rmdir "$work/way/$name"
        : >"$work/way/$name"
        files "$work/way" >"$work/files_way"
        fails "the folder $work/way/$name cannot be made" "$alone" "$tree/install.sh" "$work/way"
        files "$work/way" >"$work/out"
        judge 0 0 "$work/files_way" "what stood beside the file $name"
    done
    # A link to a folder is one, too: a file that is renamed to it would go into the folder.
    rm -rf "$work/way"
    mkdir -p "$work/way/bin" "$work/elsewhere/folder"
    ln -s "$work/elsewhere/folder" "$work/way/bin/edfvd"
    files "$work/way" >"$work/files_way"
    fails "$work/way/bin/edfvd is a folder" "$alone" "$tree/install.sh" "$work/way"
    files "$work/way" >"$work/out"
    judge 0 0 "$work/files_way" 'what stood beside a link to a folder'
    holds 'nothing is in the folder that it leads to' rmdir "$work/elsewhere/folder"
}

refused
installed
release
pages
links_that_lead_out
prebuilt_libraries
libraries
for_another_machine
page_in_browser
files "$work/prefix" >"$work/files_all"
names
planted
owned
interrupted
in_the_way
# It needs nothing of the tree.
rm -rf "$tree"
cp -R control "$work/control"
tries 0 control/check.txt '' "$alone" "$work/prefix/bin/edfvd" check "$work/control/tasks.toml"
ends installing
