#!/usr/bin/env bash
#SBATCH --job-name=planarbend
#SBATCH --requeue
#SBATCH --open-mode=append
# Lays out the parts of a batch as a Slurm array, and writes one report for each part. Submit it from the top of
# the repository; all nodes must see OUT and FOLDER:
#
#   sbatch --array=0-15 examples/cluster/array.sbatch [--json] OUT VERTICES 16
#   sbatch --array=0-99 examples/cluster/array.sbatch [--json] OUT FOLDER
#
# Task I of the first form takes part I of 16 of all connected planar graphs of degree at most 4 on VERTICES
# vertices from geng and planarg. Task I of the second form takes file number I, from 0, of FOLDER/*.pc, sorted by
# name, so a folder of 100 files needs tasks 0 to 99. If another try of a part may succeed (`part` exits with 75),
# its task requeues itself, up to three times. If submitted again with the same arguments, an array does only the
# parts without a report that ends complete.
#
# Exit status of a task: that of `part` (see `part --help`). Environment: as for `part`; CLUSTER_FOLDER is this
# script's folder (default: examples/cluster in the folder from which it was submitted), since Slurm runs a copy.
set -uo pipefail

try_again=75 # the status of a part for which another try may succeed
most_tries=3 # after the first
patience=60  # seconds to wait until Slurm ends this try

fail() {
    printf 'array.sbatch: %s\n' "$2" >&2
    exit "$1"
}

usage="usage: sbatch --array=FIRST-LAST array.sbatch [--json] OUT VERTICES PARTS, or [--json] OUT FOLDER"
if [[ ${1:-} == --help || ${1:-} == -h ]]; then
    sed -n '/^# Lays out/,/^set /{ s/^# \{0,1\}//p }' -- "$0"
    exit 0
fi
json=()
if [[ ${1:-} == --json ]]; then json=(--json); shift; fi
if [[ ${1:-} == -* ]]; then fail 2 "$usage"; fi
task=${SLURM_ARRAY_TASK_ID:-}
[[ -n $task ]] || fail 2 "not a task of an array; $usage"
part=${CLUSTER_FOLDER:-${SLURM_SUBMIT_DIR:-.}/examples/cluster}/part
[[ -x $part ]] || fail 1 "$part does not exist: submit from the top of the repository, or set CLUSTER_FOLDER"

if (($# == 3)); then
    words=("$1" "$2" "$task/$3")
elif (($# == 2)); then
    files=("$2"/*.pc)
    [[ -e ${files[task]:-} ]] || fail 2 "$2 has no .pc file with number $task, counted from 0"
    words=("$1" "${files[task]}")
else
    fail 2 "$usage"
fi

"$part" "${json[@]}" "${words[@]}"
status=$?
if ((status == try_again && ${SLURM_RESTART_COUNT:-0} < most_tries)); then
    printf 'array.sbatch: task %s is requeued\n' "$task" >&2
    scontrol requeue "${SLURM_ARRAY_JOB_ID}_$task" && sleep "$patience"
fi
exit "$status"
