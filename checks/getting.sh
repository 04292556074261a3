#!/bin/sh
# Tries what somebody gets who has this repository and not the command rt: the first command of README.md, install.sh with a program in C
# that is compiled with what it installed, and pip with the Python package, each in a fresh copy of the tree with its prebuilt program
# and library; that these are used only for the sources that they were built from; the words --help and --version; and the completion
# for bash. It needs no built program.
# usage: getting.sh
. "$(dirname -- "$0")/../tools/usage.sh"
takes 0 0 "$@"
cd "$(dirname -- "$0")/../examples" || exit 1
# shellcheck disable=SC2034
PROGRAM=$PWD/../prebuilt/edfvd
. ../checks/copied_tree.sh
clone="$work/a clone"
line='the program is not built, the one in prebuilt is not of these sources and this KIT, or does not run here, and the command rt'
source=$clone/crates/mc_task/src/task.rt

# copies: the files of the repository, without what is ignored, all of them new
copies() {
    (
        cd .. || exit
        if [ -e .git ]; then
            git ls-files -co --exclude-standard
        else
            find . -name out -prune -o -name libedfvd.so -path '*python*' -o -type f -print
        fi
    ) >"$work/names"
    mkdir "$clone"
    tar -C .. -cf - -T "$work/names" | tar -C "$clone" -xmf -
}

# calls STATUS SAYS WORDS..: a call of the wrapper in the clone, without rt, has this status and on standard error these words. It writes
# the text of control if the status is 0, and nothing if it is not.
# shellcheck disable=SC2154
calls() {
    text=control/check.txt
    [ "$1" -eq 0 ] || text=$work/empty
    tries "$1" "$text" "$2" "${3:-$alone}" "$clone/edfvd" check control/tasks.toml
}

# first_command: what README.md shows first is what is written, within a second of the processor, and nothing is built for it
first_command() {
    sed -n '/^\$ \.\/edfvd /,/^```$/{ /^```$/q; p; }' ../README.md >"$work/shown"
    command=$(sed -n '1s/^\$ //p' "$work/shown")
    sed -n '2,/^\$ /{ /^\$ /!p; }' "$work/shown" >"$work/wanted"
    holds 'README.md shows a command and its lines' [ "$(wc -l <"$work/wanted")" -ge 3 ]
    # shellcheck disable=SC3045
    (cd "$clone" && ulimit -t 1 && bounded env PATH="$alone" sh -c "$command") >"$work/out" 2>"$work/err"
    judge 0 $? "$work/wanted" "in a fresh clone: $command"
    holds 'nothing is said' cmp "$work/err" "$work/empty"
    holds 'nothing is built' [ ! -e "$clone/crates/edfvd_program/out" ]
}

# compared_once: as long as nothing changes, nothing is read again; in a tree that cannot be written each call reads all
compared_once() {
    mkdir "$work/no_sums"
    printf '#!/bin/sh\nexit 1\n' >"$work/no_sums/sha256sum"
    chmod +x "$work/no_sums/sha256sum"
    calls 0 '' "$work/no_sums:$alone"
    touch "$clone/crates/mc_task/src/task.rt"
    calls 127 "$line" "$work/no_sums:$alone"
    rm -r "$clone/prebuilt/out"
    : >"$clone/prebuilt/out"
    for _ in 1 2; do calls 0 ''; done
    rm "$clone/prebuilt/out"
    calls 0 ''
    ln -s "$clone/edfvd" "$work/link"
    tries 0 control/check.txt '' "$alone" "$work/link" check control/tasks.toml
}

# copied: in a copy with the times of the files, the note of a comparison says nothing, even if its time is to come
copied() {
    cp -pR "$clone" "$work/copy"
    touch -d '1 day' "$work/copy/prebuilt/out/edfvd.same"
    tries 0 control/check.txt '' "$alone" "$work/copy/edfvd" check control/tasks.toml
    touch -d '1 day' "$clone/prebuilt/out/edfvd.same"
    rm -r "$work/copy"
    cp -pR "$clone" "$work/copy"
    rm "$clone/prebuilt/out/edfvd.same"
    echo '// more' >>"$work/copy/crates/mc_task/src/task.rt"
    tries 127 "$work/empty" "$line" "$alone" "$work/copy/edfvd" check control/tasks.toml
    rm -r "$work/copy"
}

# put_back: puts back what a change has spoilt
put_back() {
    for path in crates/mc_task prebuilt KIT crates.txt; do
        rm -rf "${clone:?}/$path"
        cp -R "$work/pristine/$path" "$clone/$path"
    done
}

# spoils WHAT COMMAND..: after the command the prebuilt program is used no more, and when what it changed is put back it is used again
spoils() {
    what=$1
    shift
    holds "$what, done" "$@"
    calls 127 "$line"
    put_back
    calls 0 ''
}

# has_old_time FILE: the file seems to be as old as it was
has_old_time() {
    touch -d '2 years ago' "$1"
}

append() { echo '// more' >>"$source"; }
append_unseen() { append && has_old_time "$source"; }
insert() { echo >"$clone/crates/mc_task/src/more.rt" && has_old_time "$clone/crates/mc_task/src/more.rt"; }
remove() { rm "$source"; }
rename() { mv "$source" "$clone/crates/mc_task/src/other.rt"; }
without_specs() { rm -r "$clone/crates/mc_task/specs"; }
without_crate() { rm -r "$clone/crates/mc_task"; }
another_line() { sed '/^mc_task:/s/$/ itoa/' ../crates.txt >"$clone/crates.txt"; }
another_kit() { echo 'rattle-kit-0 logic 0' >"$clone/KIT"; }
another_machine() { sed 's/^machine .*/machine pdp11/' ../prebuilt/SOURCES >"$clone/prebuilt/SOURCES"; }
no_notes() { rm "$clone/prebuilt/SOURCES"; }
cut_notes() { cut -c 1-40 ../prebuilt/SOURCES >"$clone/prebuilt/SOURCES"; }
another_byte() { printf x | dd of="$clone/prebuilt/edfvd" bs=1 seek=200000 conv=notrunc 2>/dev/null; }
an_empty_program() { : >"$clone/prebuilt/edfvd"; }
no_mode() { chmod -x "$clone/prebuilt/edfvd"; }

# a_program_of TEXT: a script in the place of the program, with notes that say that it is the right one
a_program_of() {
    printf '#!/bin/sh\n%s\n' "$1" >"$clone/prebuilt/edfvd"
    sum=$(sha256sum <"$clone/prebuilt/edfvd" | sed 's/ .*//')
    sed "s/^\\(edfvd [0-9a-f]* \\).*/\\1$sum/" ../prebuilt/SOURCES >"$clone/prebuilt/SOURCES"
}

# only_these: what makes another program, and what is another program
only_these() {
    cp -R "$clone" "$work/pristine"
    rm -r "$work/pristine/prebuilt/out"
    spoils 'a source with more' append
    spoils 'a source with more and an old time' append_unseen
    spoils 'a source that is new' insert
    spoils 'a source less' remove
    spoils 'a source with another name' rename
    spoils 'a crate without definitions' without_specs
    spoils 'a crate less' without_crate
    spoils 'another line of crates.txt' another_line
    spoils 'another kit' another_kit
    spoils 'another machine' another_machine
    spoils 'no notes' no_notes
    spoils 'cut notes' cut_notes
    spoils 'a program with another byte' another_byte
    spoils 'an empty program' an_empty_program
    spoils 'a program that may not be run' no_mode
    spoils 'a program that needs a newer C library' a_program_of 'exit 1'
    # What makes no other program.
    echo '-- more' >>"$clone/crates/edfvd_program/proofs/Outcomes.antt"
    echo more >>"$clone/README.md"
    echo '# more' >>"$clone/crates.txt"
    calls 0 ''
}

# built_here: a program that was built here is used first, as long as it is newer than the sources
built_here() {
    mkdir -p "$clone/crates/edfvd_program/out"
    here_built=$clone/crates/edfvd_program/out/edfvd_program
    printf '#!/bin/sh\necho built here\n' >"$here_built"
    chmod +x "$here_built"
    tries 0 "$(says 'built here')" '' "$alone" "$clone/edfvd" check control/tasks.toml
    tries 0 "$(says "$here_built")" '' "$alone" "$clone/prebuilt/program.sh"
    touch -d '1 hour ago' "$here_built"
    calls 0 ''
    tries 0 "$(says "$clone/prebuilt/edfvd")" '' "$alone" "$clone/prebuilt/program.sh"
    : >"$clone/prebuilt/edfvd"
    tries 1 "$work/empty" 'the program is older than its sources, and prebuilt has none of these sources' "$alone" "$clone/prebuilt/program.sh"
    put_back
    printf '#!/bin/sh\necho called >>"%s"\n' "$work/called" >"$work/rt/rt"
    chmod +x "$work/rt/rt"
    calls 0 '' "$with"
    holds 'nothing is proved' [ ! -e "$work/called" ]
    rm -r "$clone/crates/edfvd_program/out"
}

# answers NAME COMMAND: the command answers --help and --version itself, and passes all other words on
answers() {
    tries 0 ../man/help.txt "" "$alone" "$2" --help
    bounded env PATH="$alone" "$2" --version >"$work/version" 2>"$work/err"
    sed -n '/^## /{ s/^## Since \(.*\)/edfvd \1+changes/; s/^## \([0-9.]*\).*/edfvd \1/; p; q; }' ../CHANGELOG.md >"$work/wanted"
    printf 'commit unknown\nkit %s\nneeds Linux on %s, with glibc 2.34 or later\n' "$(cat ../KIT)" "$(uname -m)" >>"$work/wanted"
    cp "$work/version" "$work/out"
    judge 0 0 "$work/wanted" "--version of $1"
    "$program" >"$work/usage"
    for words in '--help x' '--version x' '-h' 'check --help x' ''; do
        # shellcheck disable=SC2086
        tries 2 "$work/usage" '' "$alone" "$2" $words
    done
    for word in --help --version; do
        if [ -w /dev/full ]; then
            bounded env PATH="$alone" "$2" "$word" >/dev/full 2>"$work/err"
            holds "$word of $1 to a full disk has status 8" [ $? -eq 8 ]
            holds "$word of $1 to a full disk has one line" [ "$(wc -l <"$work/err")" -eq 1 ]
        fi
        { sleep 0.1; bounded env PATH="$alone" "$2" "$word" 2>"$work/err"; } | :
        holds "$word of $1 to a closed pipe has at most a line" [ "$(wc -l <"$work/err")" -le 1 ]
    done
}

# the_help: it fits on a screen, and has the forms of the program and no others
the_help() {
    holds 'the help fits on a screen' [ "$(awk 'length > 80 { wide++ } END { print NR + 100 * wide }' ../man/help.txt)" -le 24 ]
    "$program" | sed 's/^usage: //; s/ | /\n/g' >"$work/wanted"
    sed -n '/^$/d; s/^  \([a-z][^ ]*\( \[*[A-Z][A-Z]*\]*\)*\)  .*/\1/p' ../man/help.txt | sort >"$work/out"
    sort "$work/wanted" >"$work/sorted"
    judge 0 0 "$work/sorted" 'the forms of the help'
}

# compiles_in_c: a program in C is compiled with the installed header and library, by the flags of pkg-config, and runs
compiles_in_c() {
    soname=libedfvd.so.$(sed -n 's/^#define EDFVD_VERSION //p' ../c/edfvd.h)
    holds 'the installed library' cmp "$prefix/lib/$soname" ../prebuilt/libedfvd.so
    if ! command -v pkg-config >/dev/null 2>&1 || ! command -v "${CC:=cc}" >/dev/null 2>&1; then
        echo 'getting: a program in C is left out, there is no pkg-config or no C compiler'
        return
    fi
    # The flags are words for a shell: the name of the prefix has a blank.
    flags=$(PKG_CONFIG_PATH="$prefix/lib/pkgconfig" pkg-config --cflags --libs edfvd)
    holds 'control.c with the flags of pkg-config' eval "\"\$CC\" ../c/examples/control.c $flags -o \"\$work/control\""
    bounded env LD_LIBRARY_PATH="$prefix/lib" "$work/control" >"$work/out" 2>"$work/err"
    judge 0 $? ../c/expected/control.txt 'control.c with the installed library'
}

# installs: install.sh installs the prebuilt program, and the prefix may be moved and linked to
installs() {
    bounded env PATH="$alone" "$clone/install.sh" "$work/first place" >"$work/text" 2>"$work/err"
    holds 'install.sh' [ $? -eq 0 ]
    mv "$work/first place" "$work/second place"
    prefix="$work/second place"
    holds 'the installed program' cmp "$prefix/libexec/edfvd/edfvd" "$program"
    holds 'the installed page' cmp "$prefix/share/doc/edfvd/edfvd.html" ../prebuilt/edfvd.html
    compiles_in_c
    answers 'the installed command' "$prefix/bin/edfvd"
    ln -s "$prefix/bin/edfvd" "$work/installed link"
    ln -s ../../installed\ link "$prefix/bin/a link"
    for command in "$prefix/bin/edfvd" "$work/installed link" "$prefix/bin/a link"; do
        tries 0 control/check.txt '' "$alone" "$command" check control/tasks.toml
    done
    tries 0 control/check.txt '' "$alone:$prefix/bin" edfvd check control/tasks.toml
    tasks=$PWD/control/tasks.toml
    (cd "$prefix/bin" && bounded env PATH="$alone" sh edfvd check "$tasks") >"$work/out"
    judge 0 $? control/check.txt 'sh edfvd, in its folder'
    # Signals and statuses are those of the program.
    tries 3 refused/zero_period.txt '' "$alone" "$prefix/bin/edfvd" check refused/zero_period.toml
}

# completes WANTED WORDS..: bash completes the last of these words in this way
completes() {
    wanted=$1
    shift
    # shellcheck disable=SC2016
    bash --norc -c '. "$1"; shift; COMP_WORDS=(edfvd "$@"); COMP_CWORD=$#; _edfvd; echo "${COMPREPLY[@]}"' bash ../man/edfvd.bash "$@" >"$work/out" 2>&1
    judge 0 $? "$(says "$wanted")" "completing $*"
}

completion() {
    if ! command -v bash >/dev/null 2>&1; then
        echo 'getting: the completion is left out, there is no bash'
        return
    fi
    all=$("$program" | sed 's/^usage: //; s/ | /\n/g' | sed 's/ .*//' | tr '\n' ' ')
    completes "$all--help --version" ''
    completes 'run runall' ru
    completes '--version' --v
    completes '' x
    completes control/tasks.toml check control/ta
    completes control/tasks.toml judge control/ta
    completes control/tasks.toml judge x control/ta
    completes '' judge x y control/ta
    completes '' check x control/ta
    completes '' soak control/ta
    completes '' accept control/ta
    completes 'control/tasks.toml' runall x control/ta
}

# on_arm: on 64-bit ARM the wrapper runs the prebuilt program for that machine, if it is of these sources, and never the other one
on_arm() {
    mkdir -p "$work/arm" "$clone/prebuilt/aarch64"
    printf '#!/bin/sh\necho aarch64\n' >"$work/arm/uname"
    # What stands for the program has status 2 without words, as the program has.
    printf '#!/bin/sh\n[ $# -ne 0 ] || exit 2\necho "$* on ARM"\n' >"$clone/prebuilt/aarch64/edfvd"
    chmod +x "$work/arm/uname" "$clone/prebuilt/aarch64/edfvd"
    cp "$clone/prebuilt/SOURCES" "$work/sources"
    tries 127 "$work/empty" "$line" "$work/arm:$alone" "$clone/edfvd" check control/tasks.toml
    grep -v '^aarch64/edfvd ' "$work/sources" >"$clone/prebuilt/SOURCES"
    # shellcheck disable=SC2016
    here=$clone sh -c '. "$here/sources.sh"
        echo "aarch64/edfvd $(digest_of aarch64/edfvd) $(sha256sum <"$here/prebuilt/aarch64/edfvd" | sed "s/ .*//")"' >>"$clone/prebuilt/SOURCES"
    for time in first second; do
        tries 0 "$(says 'check control/tasks.toml on ARM')" '' "$work/arm:$alone" "$clone/edfvd" check control/tasks.toml
        holds "the $time call notes the comparison" [ -e "$clone/prebuilt/out/aarch64/edfvd.same" ]
    done
    calls 0 ''
    tries 0 "$(says 'check control/tasks.toml on ARM')" '' "$work/arm:$alone" "$clone/edfvd" check control/tasks.toml
    echo '// more' >>"$source"
    tries 127 "$work/empty" "$line" "$work/arm:$alone" "$clone/edfvd" check control/tasks.toml
    # On a machine of another kind there is none.
    printf '#!/bin/sh\necho sparc64\n' >"$work/arm/uname"
    cp -p ../crates/mc_task/src/task.rt "$source"
    tries 127 "$work/empty" "$line" "$work/arm:$alone" "$clone/edfvd" check control/tasks.toml
    rm -r "$clone"
    copies
}

# python: pip installs the package with the prebuilt library, and without installing it is imported from the clone
python() {
    if ! python3 -c 'import ensurepip, venv' 2>/dev/null || ! python3 -m venv "$work/venv" 2>/dev/null; then
        echo 'getting: the Python package is left out, there is no python3 that makes a virtual environment with pip'
        return
    fi
    program_text='from edfvd import Task, check; print(check([Task("ctl", "high", 10, 2, 6), Task("log", "low", 10, 5)]).scale)'
    tools=$work/venv/bin:$alone
    (cd "$clone" && timeout 300 env PATH="$tools" PIP_NO_INDEX=1 PIP_DISABLE_PIP_VERSION_CHECK=1 pip install -q ./python) >"$work/text" 2>&1
    holds 'pip install ./python' [ $? -eq 0 ] || tail -n 5 "$work/text"
    (cd / && bounded env -u EDFVD_LIBRARY -u PYTHONPATH PATH="$tools" python -c "$program_text") >"$work/out" 2>"$work/err"
    judge 0 $? "$(says 2/5)" 'the installed package'
    holds 'the installed library' cmp "$(find "$work/venv" -name libedfvd.so)" ../prebuilt/libedfvd.so
    bounded env -u EDFVD_LIBRARY PYTHONPATH="$clone/python" PYTHONDONTWRITEBYTECODE=1 python3 -c "$program_text" >"$work/out" 2>"$work/err"
    judge 0 $? "$(says 2/5)" 'the package in the clone'
    # Of other sources there is no library.
    echo '/* more */' >>"$clone/c/edfvd.c"
    says='neither c/out nor prebuilt has a library that was built from these sources; c/build.sh makes it'
    bounded env -u EDFVD_LIBRARY PYTHONPATH="$clone/python" PYTHONDONTWRITEBYTECODE=1 python3 -c "$program_text" >"$work/out" 2>"$work/err"
    judge 1 $? "$work/empty" 'the package in a clone with another guard'
    holds 'the import says why' grep -qF "ImportError: there is no library of edfvd: library.sh: $says" "$work/err"
    (cd "$clone" && timeout 300 env PATH="$tools" PIP_NO_INDEX=1 pip wheel -q -w "$work/wheels" ./python) >"$work/text" 2>&1
    holds 'pip refuses' [ $? -ne 0 ]
    holds 'pip says why' grep -qF "$says" "$work/text"
}

copies
if ! bounded env PATH="$alone" "$clone/edfvd" check control/tasks.toml >/dev/null 2>&1; then
    echo 'getting: prebuilt/edfvd is not of these sources: prebuilt/refresh.sh writes it'
    exit 1
fi
rm -r "$clone/prebuilt/out"
the_help
completion
first_command
compared_once
copied
only_these
built_here
rm -rf "$clone"
copies
answers 'the wrapper' "$clone/edfvd"
# A folder .git without git, or that is no repository.
mkdir "$clone/.git"
answers 'the wrapper without git' "$clone/edfvd"
rmdir "$clone/.git"
installs
on_arm
python
ends getting
