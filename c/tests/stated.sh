#!/bin/sh
# Writes, as macros of C, the numbers in those sentences of edfvd.h that the tests try: so a test fails if its sentence names a
# wrong one. For a sentence that is not there no macro is written, and the status is 1; the one on promised memory is written as 1
# if it is there, and else as 0, since memory has to be taken to see whether it is needed.
# usage: stated.sh [HEADER]
. "$(dirname -- "$0")/../../tools/usage.sh"
takes 0 1 "$@"
header=${1:-$(dirname -- "$0")/../edfvd.h}
# Each sentence in one line, without the stars of its comment.
text=$(sed 's/^ \* \{0,1\}//' "$header" | tr '\n' ' ') && [ -n "$text" ] || exit 1

# states NAME WORDS: the macro of the number that these words have in the place of N
states() {
    pattern=$(printf '%s\n' "$2" | sed 's/\<N\>/\\([0-9][0-9,]*\\)/')
    found=$(printf '%s\n' "$text" | sed -n "s/.* $pattern.*/\1/p" | tr -d ,)
    if [ -z "$found" ]; then
        echo "stated: $header does not say: $2" >&2
        failed=1
    else
        echo "#define STATED_$1 $found"
    fi
}

failed=0
states STACK_KIB 'N Ki\{0,1\}B of stack'
states STACK_LEVELS 'its limit of N:'
states STACK_FILE_BYTES 'a file of N bytes uses some'
states STACK_BYTES 'bytes uses some N bytes of stack'
states LEAST_PERCENT 'EDFVD_OK with N percent means that the test admits the set if each high budget is the low one'
states NEXT_PERCENT 'is the low one, and at N percent no longer'
states PLACE_BYTES 'All memory is taken here, some N bytes a place, and no other call with it is EDFVD_MEMORY, except'
case $text in
*' EDFVD_OK then means that malloc promised all places'*) echo '#define STATED_PROMISED 1' ;;
*) echo '#define STATED_PROMISED 0' ;;
esac
exit "$failed"
