#!/bin/sh
# Gives the built program each document of the TOML test suite: a valid one is never `not TOML`, an invalid one is, except the forms
# of TOML 1.1 that the suite, which is one of 1.0, has among the invalid ones. Where there is a python3 with tomllib, the answer to a
# valid one is the model's to what tomllib reads. The suite is looked for where Debian's golang-github-burntsushi-toml-dev has it.
# Of version 1.2.0 none of the 100 valid ones is `not TOML`, and for all but one, with the escape `\e`, tomllib reads the tree. Of the 234
# invalid ones 227 are `not TOML`. The other seven are forms of TOML 1.1, which the toolchain's crate `toml` reads: datetime/no-secs,
# inline-table/linebreak-1 to -4, inline-table/trailing-comma and string/basic-byte-escapes.
# usage: suite.sh [FOLDER]
. "$(dirname -- "$0")/../tools/usage.sh"
takes 0 1 "$@"
folder=$(cd "${1:-/usr/share/gocode/src/github.com/BurntSushi/toml/internal/toml-test/tests}" 2>/dev/null && pwd)
cd "$(dirname -- "$0")/../examples" || exit 1
if ! [ -d "$folder/valid" ] || ! [ -d "$folder/invalid" ]; then
    if [ $# -gt 0 ]; then
        echo "suite: $1 has no folders valid and invalid" >&2
        exit 1
    fi
    echo 'suite: skipped, the TOML test suite is not installed (apt-get install golang-github-burntsushi-toml-dev)'
    exit 0
fi
. ../checks/expect.sh
says 'task file: not TOML' >/dev/null
cp "$work/line" "$work/not_toml"

# is_new NAME: a form of TOML 1.1 among the invalid ones
is_new() {
    case $1 in
    # Times without seconds; inline tables over several lines, and with a last comma; bytes as \xHH in strings.
    invalid/datetime/no-secs.toml | invalid/inline-table/linebreak-[1-4].toml | invalid/inline-table/trailing-comma.toml | \
        invalid/string/basic-byte-escapes.toml) ;;
    *) false ;;
    esac
}

# notes NAME WANTED TEST..: notes one document, for which the test has to hold
notes() {
    name=$1
    wanted=$2
    shift 2
    runs=$((runs + 1))
    if ! "$@"; then
        failed=$((failed + 1))
        echo "suite: $name: status $status, $(head -n 1 "$work/out"); wanted: $wanted"
    fi
}

# is_refused: the document is none
is_refused() {
    [ "$status" -eq 3 ] && cmp -s "$work/out" "$work/not_toml"
}

# is_taken: the document is one, whatever it says
is_taken() {
    [ "$status" -le 3 ] && ! cmp -s "$work/out" "$work/not_toml"
}

find "$folder/valid" "$folder/invalid" -name '*.toml' | sort >"$work/documents"
new=0
while read -r document; do
    name=${document#"$folder/"}
    bounded "$program" check "$document" >"$work/out"
    status=$?
    case $name in
    valid/*) notes "$name" 'a document' is_taken ;;
    *) if is_new "$name"; then
        new=$((new + 1))
        notes "$name" 'a document of TOML 1.1' is_taken
    else
        notes "$name" 'not TOML' is_refused
    fi ;;
    esac
done <"$work/documents"
echo "suite: of the invalid ones $new are of TOML 1.1"
if python3 -c 'import tomllib' 2>/dev/null; then
    python3 -B ../checks/suite.py "$program" "$folder" || failed=$((failed + 1))
else
    echo 'suite: the model is skipped, there is no python3 of version 3.11 or later'
fi
ends suite
