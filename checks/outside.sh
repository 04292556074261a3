#!/bin/sh
# Makes a repository of one's own in a new folder by the commands of docs/CALLING.md, and runs its program
# by `rt try`, which proves nothing, so no crate is proved again. With the word prove `rt ci first` proves it there too: that
# takes of the crates below what `rt ci` here has kept, and stops where one of them would have to be proved again.
# usage: outside.sh [prove]
. "$(dirname -- "$0")/../tools/usage.sh"
takes 0 1 "$@"
[ "${1-prove}" = prove ] || wrong_words
cd "$(dirname -- "$0")/.." || exit 1
edfvd=$PWD
work=$(mktemp -d) || exit 1
prover=
# The prover's own group ends with this script, and nothing else does.
trap '[ -z "$prover" ] || kill -- "-$prover" 2>/dev/null; rm -rf "$work"' EXIT
trap 'exit 1' HUP INT TERM

# fail WHY: shows what was printed last
fail() {
    echo "outside: $1" >&2
    tail -n 20 "$work/log" >&2
    exit 1
}

# The page's first block of commands, in the empty folder.
awk '/^```sh$/ && !done { inside = 1; next } /^```$/ && inside { inside = 0; done = 1 } inside' docs/CALLING.md >"$work/commands"
[ -s "$work/commands" ] || fail 'docs/CALLING.md has no block of commands'
mkdir "$work/own"
(cd "$work/own" && edfvd=$edfvd sh -eu "$work/commands") >"$work/log" 2>&1 </dev/null || fail 'the commands of the page failed'
cd "$work/own" || exit 1

# The program, unproved: what it writes is what the page says.
(cd crates/first && rt try) >"$work/log" 2>&1 </dev/null || fail 'rt try refused the program'
grep -qxF -f crates/first/stdout "$work/log" || fail 'the program wrote another text'

# A link in a crate's place is refused, as the page says.
mkdir -p "$work/linked/crates"
cp -R crates/first "$work/linked/crates"
for crate in crates/*; do
    [ "$crate" = crates/first ] || ln -s "$PWD/$crate" "$work/linked/crates"
done
cp crates.txt HANDLES "$work/linked"
(cd "$work/linked/crates/first" && rt check) >"$work/log" 2>&1 </dev/null && fail 'rt check took a link'
grep -q 'lies outside the repository' "$work/log" || fail 'rt check refused a link for another reason'

if [ $# -eq 0 ]; then
    echo 'outside: the program runs in a repository of its own'
    exit 0
fi

setsid sh -c 'echo $$ >"$1"; exec rt ci first' sh "$work/prover" >"$work/log" 2>&1 </dev/null &
started=$!
while kill -0 "$started" 2>/dev/null; do
    sleep 1
    [ -s "$work/prover" ] && prover=$(cat "$work/prover")
    anew=$(sed -n 's/^== //p' "$work/log" | grep -vx first | head -n 1)
    [ -z "$anew" ] || fail "$anew would be proved anew: run rt ci here first"
done
prover=
wait "$started" || fail 'rt ci first did not pass'
echo "outside: $(tail -n 1 "$work/log")"
