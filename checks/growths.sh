#!/bin/sh
# Refuses each growth of memory of a run of each command in turn, by a library that stands before the C library's malloc and realloc
# (refusals.c): each run then ends within a minute with status 9 and writes nothing, or does without that growth and ends as ever.
# It prints the number of growths of each run, and how many of them give status 9 when they fail. Most do. Two kinds do not: the list
# of the words at its exact size, which then grows word by word, and the start of a thread, whose caller then serves its task.
# usage: growths.sh
. "$(dirname -- "$0")/../tools/usage.sh"
takes 0 0 "$@"
cd "$(dirname -- "$0")/../examples" || exit 1
. ../checks/expect.sh
if ! has_library; then
    echo 'growths: skipped, there is no C compiler'
    exit 0
fi

# grows NUMBER WORDS..: with this growth refused
grows() {
    growth=$1
    shift
    refuse "GROWTH=$growth" "$@"
    if [ "$status" -eq 9 ] && cmp -s "$work/out" "$work/empty"; then
        runs=$((runs + 1))
        wanting=$((wanting + 1))
    else
        judge "$ordinary" "$status" "$work/ordinary" "$* with growth $growth refused"
    fi
}

# growths WORDS..: with each growth of their run refused
growths() {
    refuse GROWTH=0 "$@"
    ordinary=$status
    cp "$work/out" "$work/ordinary"
    count=$(reported growths)
    wanting=0
    each "$count" grows "$@"
    echo "edfvd $*: ${count:-no} growths; with one refused, $wanting runs want memory, the others do without it"
    [ "$wanting" -gt 0 ] || failed=$((failed + 1))
}

for_examples growths
ends growths
