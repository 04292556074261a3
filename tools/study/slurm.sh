#!/bin/sh
# Hands what is left of a study to Slurm, as an array of JOBS jobs, and a job after them that adds it up to FOLDER/table.txt;
# their messages are in FOLDER/jobs. It writes the number of that last job, whose failure says that parts are left: the same
# call hands in those, and none that is there. Where nothing is left it hands in nothing, and adds up itself.
# usage: slurm.sh FOLDER JOBS
set -u
here=$(dirname -- "$(readlink -f -- "$0")")
. "$here/../usage.sh"
takes 2 2 "$@"
[ "$2" -ge 1 ] 2>/dev/null || wrong_words

left=$(python3 -B "$here/study.py" left "$1") || exit 1
folder=$(readlink -f -- "$1")
if [ -z "$left" ]; then
    echo "slurm.sh: nothing is left, so nothing is handed in; the table is $folder/table.txt" >&2
    exec python3 -B "$here/study.py" table "$folder"
fi
# Slurm reads a percent sign in the name of an output as the start of a field, and two as one sign. After a backslash
# it reads neither.
case $folder in
*\\*)
    echo "slurm.sh: Slurm takes no backslash in the name of a folder, as in $folder" >&2
    exit 1
    ;;
esac
mkdir -p "$folder/jobs" || exit 1
jobs=$(printf '%s\n' "$folder/jobs" | sed 's/%/%%/g')
array=$(sbatch --parsable --array="0-$(($2 - 1))" --output="$jobs/%A_%a.txt" "$here/share.sbatch" "$here" "$folder") || exit 1
sbatch --parsable --dependency="afterany:$array" --output="$jobs/%A.txt" "$here/sum.sbatch" "$here" "$folder"
