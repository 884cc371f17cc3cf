#!/usr/bin/env bash
# SPDX-License-Identifier: BSD-2-Clause-Patent
# The task of a Slurm array: `sbatch --array=0-N fv-array.sh LIST FOLDER SIZE` checks the images of LIST, SIZE in each
# task. A task writes its answers to another file and renames it to FOLDER/ID.tsv, so that file is always complete. If
# the node of a task is lost, the task is put back in the queue (--requeue). A task whose file exists ends at once, so
# the same command does the remaining tasks. Exit status 0: the file exists. 1: the task is missing, LIST cannot be read
# or has no image for the task, or FOLDER cannot be used. 3: the arguments are wrong. 4: fv-check has failed. The
# script writes the file only if it ends with 0.
#SBATCH --requeue
#SBATCH --job-name=fvcheck
set -euo pipefail

fail() { # STATUS TEXT
    echo "fv-array.sh: $2" >&2
    exit "$1"
}

if (($# != 3)) || [[ ! $3 =~ ^[1-9][0-9]{0,8}$ ]]; then
    echo 'usage: fv-array.sh LIST FOLDER SIZE' >&2
    exit 3
fi
list=$1 folder=$2 size=$3 task=${SLURM_ARRAY_TASK_ID-}
if [[ ! $task =~ ^(0|[1-9][0-9]{0,8})$ ]]; then fail 1 'SLURM_ARRAY_TASK_ID is not the number of a task'; fi
file=$folder/$task.tsv
if [[ -s $file ]]; then exit 0; fi # an empty file has no answers, so it is not from a task that has ended
first=$((task * size + 1)) last=$((task * size + size))
if ! lines=$(sed -n "$first,$last{/^\$/!p};${last}q" < "$list"); then fail 1 "$list cannot be read"; fi
if [[ -z $lines ]]; then fail 1 "$list has no image for task $task"; fi
mapfile -t images <<< "$lines"
part=$file.part.${SLURMD_NODENAME:-}.$$
trap 'rm -f -- "$part"' EXIT
if ! : > "$part"; then fail 1 "$folder cannot be used"; fi
fv-check --no-status -- "${images[@]}" > "$part"
mv -- "$part" "$file"
