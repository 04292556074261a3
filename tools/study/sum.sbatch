#!/bin/sh
#SBATCH --job-name=edfvd-sum
#SBATCH --cpus-per-task=1
# sum.sbatch SCRIPTS FOLDER: the job after the array, which adds the study up. See slurm.sh.
exec python3 -B "$1/study.py" table "$2"
