#!/bin/bash
# array.sbatch RUN_CASE CASES RESULTS: one job of a Slurm job array audits the case of its number. Paths are absolute.
#
#     run_case=$PWD/run_case cases=/srv/audits/cases results=/srv/audits/results/2026-11-26
#     mkdir -p "$results"
#     sbatch --array=0-$(($("$run_case" "$cases" | wc -l) - 1))%50 --output="$results/slurm-%a.out" array.sbatch "$run_case" "$cases" "$results"
#
# %50 is how many run at once. A job whose audit is killed is put into the queue again, twice.
#SBATCH --job-name=turnaudit
#SBATCH --cpus-per-task=1
#SBATCH --mem=512M
#SBATCH --time=00:10:00
#SBATCH --requeue
#SBATCH --open-mode=append

"$1" "$2" "$3"
ended=$?
if [ "$ended" != 0 ] && [ "${SLURM_RESTART_COUNT:-0}" -lt 2 ]; then
    scontrol requeue "${SLURM_ARRAY_JOB_ID}_$SLURM_ARRAY_TASK_ID"
    # Slurm ends this run now.
    sleep 60
fi
exit "$ended"
