#!/bin/sh
# Works out on this machine, by GNU parallel, what is left of a study, JOBS parts at a time or as many as there are processors,
# and adds it up: the table is written, and stands in FOLDER/table.txt. The same call after a part was lost works out that part,
# and none that is there.
# usage: parallel.sh FOLDER [JOBS]
set -u
here=$(dirname -- "$(readlink -f -- "$0")")
. "$here/../usage.sh"
takes 1 2 "$@"

[ "${2:-1}" -ge 1 ] 2>/dev/null || wrong_words

left=$(python3 -B "$here/study.py" left "$1") || exit 1
folder=$(readlink -f -- "$1")
if [ -n "$left" ]; then
    python3 -B "$here/study.py" program >/dev/null || exit 1
    if ! command -v parallel >/dev/null 2>&1; then
        echo 'parallel.sh: there is no GNU parallel; Debian has it in the package parallel' >&2
        exit 1
    fi
    # GNU parallel reads its words as a shell does, and its own signs in them, as {}. So no name of a folder is among them.
    # shellcheck disable=SC2016
    echo "$left" | study_folder=$folder study_scripts=$here parallel --quote --jobs "${2:-100%}" --joblog "$folder/jobs.txt" \
        sh -c 'exec python3 -B "$study_scripts/study.py" part "$study_folder" "$1"' sh || {
        echo 'parallel.sh: parts are left; the same call works them out' >&2
        exit 1
    }
fi
python3 -B "$here/study.py" table "$folder" && cat "$folder/table.txt"
