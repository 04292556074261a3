#!/bin/sh
# Tries the wrapper edfvd in a copy of the tree. It builds a program that is missing or was built from other sources, and builds it
# once if several calls come at the same time. It accepts a program that was built from the same sources, whatever the files' times.
# usage: wrapper.sh
. "$(dirname -- "$0")/../tools/usage.sh"
takes 0 0 "$@"
cd "$(dirname -- "$0")/../examples" || exit 1
. ../checks/copied_tree.sh
source=$tree/crates/mc_task/src/task.rt
stale='the program is older than its sources, and the command rt'

# The stand-in for rt waits while there is a file $work/held, and writes a line to $work/builds for each build.
cat >"$work/rt/rt" <<END
#!/bin/sh
echo \$\$ >"$work/prover"
for crate in mc_task mc_model; do mkdir -p ../\$crate/out/rlib && : >../\$crate/out/rlib/stamp; done
while [ -e "$work/held" ]; do sleep 0.1; done
if [ -e "$work/change" ]; then sh "$work/change"; fi
echo >>"$work/builds"
cp "$program" out/edfvd_program
END
chmod +x "$work/rt/rt"
: >"$work/builds"

# call_alone STATUS SAYS: a call without rt has this status, and standard error these words
call_alone() {
    text=control/check.txt
    [ "$1" -eq 0 ] || text=$work/empty
    tries "$1" "$text" "$2" "$alone" "$tree/edfvd" check "$tasks"
}

# call_with SAYS: a call with rt answers, and standard error has these words
call_with() {
    tries 0 control/check.txt "$1" "$with" "$tree/edfvd" check "$tasks"
}

# builds NUMBER WHAT: the program was built this many times since builds was called last
builds() {
    holds "$2, and times that the program was built" [ "$(wc -l <"$work/builds")" -eq "$1" ]
    : >"$work/builds"
}

# says_soon FILE WORDS: waits until the file has the words, half a minute at most
says_soon() {
    times=0
    until grep -qF -e "$2" "$1" 2>/dev/null || [ "$times" -ge 300 ]; do
        times=$((times + 1))
        sleep 0.1
    done
}

# release_when FILE WORDS: lets rt build once the file has the words
release_when() {
    says_soon "$@"
    rm "$work/held"
}

not_built() {
    call_alone 127 'the program is not built, and the command rt'
    # A checkout that cannot be written: there is no folder for what is built, or no file in it.
    : >"$out"
    tries 127 "$work/empty" 'and cannot be built, since' "$with" "$tree/edfvd" check "$tasks"
    rm "$out"
    mkdir "$out"
    ln -s absent/begun "$out/build.log.begun"
    tries 127 "$work/empty" 'and cannot be built, since' "$with" "$tree/edfvd" check "$tasks"
    rm -r "$out"
    # The first call builds, and reports what is proved meanwhile.
    : >"$work/held"
    : >"$work/err"
    release_when "$work/err" 'edfvd: mc_task is proved, ' &
    call_with 'edfvd: mc_task is proved, '
    wait
    builds 1 'the first call'
    call_alone 0 ''
    ln -s "$tree/edfvd" "$work/link"
    tries 0 control/check.txt '' "$alone" "$work/link" check "$tasks"
    # By a relative name from a folder below.
    # shellcheck disable=SC2016
    tries 0 control/check.txt '' "$alone" sh -c 'cd "$1/examples" && exec ../edfvd check control/tasks.toml' sh "$tree"
}

# A program older than its sources is accepted if it was built from them, and is then newer than they are.
same_sources() {
    touch -d '1 hour ago' "$built"
    call_alone 0 ''
    holds 'the program got the time of the look' [ -z "$(find "$tree/crates" -name '*.rt' -newer "$built")" ]
    cp -R "$tree" "$work/copy"
    copied=$work/copy/crates/edfvd_program/out/edfvd_program
    find "$work/copy" -type f ! -path '*/out/*' -exec touch {} +
    touch -d '1 hour ago' "$copied"
    tries 0 control/check.txt '' "$alone" "$work/copy/edfvd" check "$tasks"
    # A tree in which nothing can be touched: each call compares.
    mkdir "$work/untouched"
    printf '#!/bin/sh\nexit 1\n' >"$work/untouched/touch"
    chmod +x "$work/untouched/touch"
    touch -d '1 hour ago' "$copied"
    for _ in 1 2; do tries 0 control/check.txt '' "$work/untouched:$alone" "$work/copy/edfvd" check "$tasks"; done
    rm -r "$work/copy"
}

# What makes another program makes the built one stale: a source with other bytes, one more, one less, one with another name, and
# another line in crates.txt of one of the program's crates. Proofs, other crates and comments of crates.txt do not.
other_sources() {
    cp "$source" "$work/source"
    echo '// more' >>"$source"
    call_alone 127 "$stale"
    cp "$work/source" "$source"
    call_alone 0 ''
    echo '-- more' >"$tree/crates/mc_task/specs/More.antt"
    call_alone 127 "$stale"
    rm "$tree/crates/mc_task/specs/More.antt" "$source"
    touch "$tree/crates/mc_model/src/lib.rt"
    call_alone 127 "$stale"
    cp "$work/source" "$source.rt"
    call_alone 127 "$stale"
    mv "$source.rt" "$source"
    cp "$tree/crates.txt" "$work/crates.txt"
    sed '/^mc_task:/s/$/ itoa/' "$work/crates.txt" >"$tree/crates.txt"
    call_alone 127 "$stale"
    { cat "$work/crates.txt"; echo '# more'; echo 'more: mc_task'; } >"$tree/crates.txt"
    call_alone 0 ''
    cp "$work/crates.txt" "$tree/crates.txt"
    mkdir -p "$tree/crates/mc_task/proofs"
    echo '-- more' >"$tree/crates/mc_task/proofs/More.antt"
    echo '// more' >>"$tree/crates/calling_examples/src/main.rt"
    call_alone 0 ''
    builds 0 'calls without rt'
}

# A program without a note, or with a note about another program, as after rt ci, is accepted by its time alone.
other_program() {
    mv "$built" "$work/noted"
    { cat "$program"; echo; } >"$built"
    chmod +x "$built"
    call_alone 0 ''
    touch -d '1 hour ago' "$built"
    call_alone 127 "$stale"
    mv "$work/noted" "$built"
    call_alone 0 ''
    for left in nothing 'an empty line' 'a cut line'; do
        case $left in
        nothing) mv "$built.sources" "$work/noted" ;;
        'an empty line') echo >"$built.sources" ;;
        *) cut -c 1-64 "$work/noted" >"$built.sources" ;;
        esac
        touch -d '1 hour ago' "$built"
        call_alone 127 "$stale"
        touch "$built"
        call_alone 0 ''
    done
    # Without sums there is no digest, and none is equal to none.
    mkdir "$work/no_sums"
    printf '#!/bin/sh\nexit 1\n' >"$work/no_sums/sha256sum"
    chmod +x "$work/no_sums/sha256sum"
    echo ' ' >"$built.sources"
    touch -d '1 hour ago' "$built"
    tries 127 "$work/empty" "$stale" "$work/no_sums:$alone" "$tree/edfvd" check "$tasks"
    call_with 'the program is older than its sources, so'
    holds 'nothing says that it is not built' [ -z "$(grep 'not built' "$work/err")" ]
    builds 1 'a program older than its sources'
}

# A source that is changed while the program is built may be in it or not, so the next call builds again.
changed_meanwhile() {
    echo "echo '// more' >>'$source'" >"$work/change"
    echo '// another' >>"$source"
    call_with 'the program is older than its sources, so'
    rm "$work/change"
    call_alone 127 "$stale"
    builds 1 'a source that is changed meanwhile'
}

# A prover that fails at once ends each call, also where there is no flock.
fails_at_once() {
    mkdir "$work/failing"
    printf '#!/bin/sh\nexit 1\n' >"$work/failing/rt"
    chmod +x "$work/failing/rt"
    rm -rf "$out"
    for _ in 1 2 3 4 5 6 7 8 9 10 11 12 13 14 15 16; do
        timeout 10 env PATH="$work/failing:$alone" "$tree/edfvd" check "$tasks" >"$work/out" 2>"$work/err"
        judge 127 $? "$work/empty" 'a prover that fails at once'
    done
    holds 'a line says so' grep -qF 'the program was not proved or not built; see' "$work/err"
}

# begin: starts a call in the background that builds from nothing, and goes on building
begin() {
    rm -rf "$out"
    rm -f "$work/prover"
    : >"$work/held"
    : >"$work/first.err"
    : >"$work/err"
    env PATH="$with" "$tree/edfvd" check "$tasks" >"$work/first.txt" 2>"$work/first.err" &
    first=$!
    says_soon "$work/first.err" 'so it is proved and built first'
    says_soon "$work/prover" ''
}

# Of two calls at once one builds, and the other waits and says so.
at_once() {
    begin
    release_when "$work/err" 'another call builds the program; this one waits' &
    call_with 'another call builds the program; this one waits'
    wait
    cp "$work/first.txt" "$work/out"
    judge 0 0 control/check.txt 'the call that builds'
    builds 1 'two calls at once'
}

# When a call is killed, the next one waits for the prover that it left, and builds if that was killed, too.
killed() {
    begin
    kill -9 "$first"
    wait "$first" 2>/dev/null
    release_when "$work/err" 'another call builds the program; this one waits' &
    call_with 'another call builds the program; this one waits'
    wait
    builds 1 'a call that is killed'
    begin
    kill -9 "$first" "$(cat "$work/prover")"
    wait "$first" 2>/dev/null
    rm "$work/held"
    call_with 'so it is proved and built first'
    builds 1 'a call that is killed with its prover'
}

locks() {
    at_once
    rm -rf "$out"
    mkdir -p "$out/lock.held"
    touch -d '5 minutes ago' "$out/lock.held"
    call_with 'so it is proved and built first'
    holds 'no lock is left' [ ! -e "$out/lock.held" ]
    builds 1 'a lock that nobody holds'
    if flock=$(command -v flock); then
        ln -s "$flock" "$work/tools/flock"
        at_once
        killed
    else
        echo 'wrapper: the lock by flock is left out, there is no flock'
    fi
}

not_built
same_sources
other_sources
other_program
changed_meanwhile
fails_at_once
locks
ends wrapper
