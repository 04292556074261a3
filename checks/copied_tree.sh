# Sourced by the scripts that try the wrapper edfvd, install.sh and dist.sh, after usage.sh: makes a copy of the tree that has no built
# program, tools without rt, and a stand-in for rt, which puts the program there and proves nothing.
# shellcheck shell=sh disable=SC2034,SC2154
. ../checks/expect.sh
unset CDPATH
tree=$work/tree
out=$tree/crates/edfvd_program/out
built=$out/edfvd_program
tasks=$tree/examples/control/tasks.toml
mkdir -p "$tree/examples" "$tree/tools" "$work/tools" "$work/rt"
for file in edfvd sources.sh about.sh install.sh dist.sh crates.txt man docs LICENSE-APACHE LICENSE-MIT THIRD-PARTY-LICENSES CITATION.cff KIT; do
    cp -R "../$file" "$tree" || exit 1
done
for file in ../*.md; do cp "$file" "$tree"; done
cp -R control "$tree/examples"
cp ../tools/usage.sh "$tree/tools"
for crate in ../crates/*; do
    mkdir -p "$tree/${crate#../}"
    cp -R "$crate/src" "$tree/${crate#../}"
    if [ -d "$crate/specs" ]; then cp -R "$crate/specs" "$tree/${crate#../}"; fi
done

# What the scripts call, without rt.
for tool in sh find awk sed sort tr wc sleep dirname readlink touch mkdir rmdir chmod cp ln mv rm cat sha256sum xargs mktemp tar gzip uname \
    grep ls; do
    ln -s "$(command -v "$tool")" "$work/tools/$tool" || exit 1
done
alone=$work/tools
with=$work/rt:$work/tools

# tries STATUS TEXT SAYS TOOLS COMMAND..: the command, which an interrupt ends even if this script ignores it, gives this status and
# text, and standard error has the words SAYS, or
# nothing where they are empty
tries() {
    want=$1
    text=$2
    says=$3
    tools=$4
    shift 4
    bounded env --default-signal=INT PATH="$tools" "$@" >"$work/out" 2>"$work/err"
    status=$?
    judge "$want" "$status" "$text" "$*"
    if [ -n "$says" ] && ! grep -qF -e "$says" "$work/err" || [ -z "$says" ] && [ -s "$work/err" ]; then
        failed=$((failed + 1))
        echo "$*: standard error has not '$says':"
        cat "$work/err"
    fi
}

# holds WHAT COMMAND..: notes whether the command succeeds
holds() {
    what=$1
    shift
    runs=$((runs + 1))
    if ! "$@" >"$work/why" 2>&1; then
        failed=$((failed + 1))
        echo "$what: $*"
        head -n 10 "$work/why"
    fi
}

# put_program: the program is there, and newer than its sources
put_program() {
    mkdir -p "$out"
    cp "$program" "$built"
}

# put_libraries: stand-ins for the C libraries, which are newer than their sources
put_libraries() {
    mkdir -p "$tree/c/out"
    cp ../c/edfvd.h ../c/*.c "$tree/c"
    for file in libedfvd.a libedfvd_core.a libedfvd.so; do echo "$file" >"$tree/c/out/$file"; done
}

# put_arm: stand-ins for the program and the libraries for 64-bit ARM, of these sources
put_arm() {
    mkdir -p "$tree/c/out/aarch64"
    cp -p ../c/edfvd.h ../c/*.c ../c/*.sh "$tree/c"
    for file in edfvd libedfvd.a libedfvd_core.a libedfvd.so; do echo "$file for ARM" >"$tree/c/out/aarch64/$file"; done
    # shellcheck disable=SC2016
    here=$tree sh -c '. "$here/sources.sh" && note_sources "$here/c/out/aarch64/edfvd" "$(digest_of aarch64/edfvd)"'
}

# put_prebuilt NAME..: stand-ins for these files of the folder prebuilt, with notes that they are of the sources in the tree
put_prebuilt() (
    mkdir -p "$tree/prebuilt/aarch64" "$tree/c"
    cp ../c/edfvd.h ../c/*.c ../c/*.sh "$tree/c"
    for name; do echo "prebuilt $name" >"$tree/prebuilt/$name"; done
    here=$tree
    . "$tree/sources.sh"
    {
        printf 'kit %s\nmachine %s\n' "$(cat "$tree/KIT")" "$(uname -m)"
        for name; do echo "$name $(digest_of "$name") $(sha256sum <"$tree/prebuilt/$name" | sed 's/ .*//')"; done
    } >"$tree/prebuilt/SOURCES"
)

# put_page_sources: the files that the page is made of, without what was built
put_page_sources() {
    mkdir -p "$tree/web"
    cp -R ../web/*.py ../web/*.c ../web/build.sh ../web/index.html ../web/style.css ../web/src "$tree/web"
    for folder in avionics certified control demand explained judged overrun record refused runs several; do cp -R "$folder" "$tree/examples"; done
}

# put_page: a stand-in for the page, with a note that it is of the sources in the tree
put_page() {
    put_page_sources
    mkdir -p "$tree/web/out"
    echo '<!doctype html>' >"$tree/web/out/edfvd.html"
    (
        here=$tree
        . "$tree/sources.sh"
        note_sources web/out/edfvd.html "$(digest_of edfvd.html)"
    )
}

# sums_hold FOLDER FILE: the files in the folder have the sums of the file
sums_hold() {
    (cd "$1" && sha256sum --status -c "$2")
}

# stand_in TOOL NUMBER SIGNAL: the folder $work/stopped gets a tool that does what it is for, and at its call of this number sends its
# caller the signal before, or fails if the signal is 0
stand_in() {
    rm -rf "$work/stopped"
    mkdir "$work/stopped"
    : >"$work/calls"
    cat >"$work/stopped/$1" <<END
#!/bin/sh
echo >>'$work/calls'
if [ \$(wc -l <'$work/calls') -eq $2 ]; then
    [ $3 != 0 ] || exit 1
    kill -$3 \$PPID
fi
exec '$work/tools/$1' "\$@"
END
    chmod +x "$work/stopped/$1"
}
