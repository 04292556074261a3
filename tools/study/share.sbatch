#!/bin/sh
#SBATCH --job-name=edfvd-share
#SBATCH --cpus-per-task=1
# share.sbatch SCRIPTS FOLDER: one job of the array, which works out its share of a study. See slurm.sh.
exec python3 -B "$1/study.py" share "$2" "$SLURM_ARRAY_TASK_ID" "$SLURM_ARRAY_TASK_COUNT"
