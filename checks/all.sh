#!/bin/sh
# Runs each script that tries the built program, as many at once as there are processors; the one that limits the time of a run follows
# alone, and so do those that need what library.sh, web.sh and arm.sh build. What a script printed is shown when it has ended. The
# status is that of the first of the list below that failed, or 0.
# usage: all.sh
. "$(dirname -- "$0")/../tools/usage.sh"
takes 0 0 "$@"
cd "$(dirname -- "$0")" || exit 1
work=$(mktemp -d) || exit 1
trap 'rm -rf "$work"' EXIT
trap 'exit 1' HUP INT TERM

# The longest first, so that none of them is left alone at the end.
cat >"$work/together" <<'LIST'
night.sh 2
costs.sh
compare.sh
memcheck.sh
hostile.sh
usages.sh
library.sh
web.sh
check.sh
mutate.sh
faults.sh
second.sh
outside.sh
explain.sh
lasting.sh
growths.sh
studies.sh
archive.sh
getting.sh
wrapper.sh
installing.sh
limits.sh
suite.sh
shown.sh
records.sh
licences.sh
LIST
cat >"$work/alone" <<'LIST'
calm.sh
arm.sh
prebuilt.sh
LIST
cat "$work/together" "$work/alone" >"$work/list"

# Built once, before the scripts ask for it side by side.
[ -n "${PROGRAM:-}" ] || ../edfvd >/dev/null

# run JOBS: runs the scripts whose lines come in, this many at once
run() {
    # shellcheck disable=SC2016
    tr '\n' '\0' | xargs -0 -P "$1" -n 1 sh -c '
        ./$2 >"$1/${2%%.*}.text" 2>&1
        echo $? >"$1/${2%%.*}.status"
        cat "$1/${2%%.*}.text"
    ' sh "$work"
}
run "$(nproc)" <"$work/together"
run 1 <"$work/alone"

while read -r script _; do
    status=$(cat "$work/${script%.sh}.status" 2>/dev/null) || status=1
    if [ "$status" -ne 0 ]; then
        echo "all: $script failed with status $status"
        exit "$status"
    fi
done <"$work/list"
