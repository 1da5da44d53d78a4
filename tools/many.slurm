#!/usr/bin/env bash
#SBATCH --job-name=shim
#SBATCH --array=0-19
#SBATCH --cpus-per-task=8
#SBATCH --mem=4G
#SBATCH --time=02:00:00
#SBATCH --output=shim-%A-%a.log
# An example of a Slurm job array over many inputs: each of its tasks takes each twentieth input, and keeps eight processors
# at work. `shim batch` gets 64 inputs at a time, and their reports stand in one file; with `run` as the last word each
# input has a run of its own, and a file.
# Use: sbatch many.slurm SOURCE INPUTS RESULTS [run], where INPUTS and RESULTS are folders that all machines see. Runs that
# were over aren't done again, so the same command over the same inputs goes on where an earlier one was stopped, and does
# again what failed.
set -u
source=$1 inputs=$2 results=$3 mode=${4:-batch}
part=${SLURM_ARRAY_TASK_ID:-0} parts=${SLURM_ARRAY_TASK_COUNT:-1} at_once=${SLURM_CPUS_PER_TASK:-$(nproc)}
for tool in shim parallel; do command -v $tool > /dev/null || { echo "$tool isn't in the PATH of this machine" >&2; exit 2; }; done
mkdir -p "$results/reports"
from=$(printf %q "$source") to=$(printf %q "$results/reports")
case $mode in
  batch) each=64 command="shim batch $from --workers 1 -- {} > $to/$part.{#}" ;;
  run)
    each=1 command="shim run $from --workers 1 --input {} > $to/{/}"
    twice=$(find "$inputs" -type f -printf '%f\n' | LC_ALL=C sort | uniq -d | head -n 1)
    [ -z "$twice" ] || { echo "several inputs are called $twice, and with run a report has its input's name: rename them, or leave run out" >&2; exit 2; }
    ;;
  *) echo "$mode is neither batch nor run" >&2; exit 2 ;;
esac
log=$results/statuses.$part
# `--resume` passes over all that has a line there. Only with 0, 1, 3 and 4 are reports whole: what ended in another way, or by
# a signal, as where the array was cancelled, is to be done again.
[ ! -f "$log" ] || { awk -F '\t' 'NR == 1 || $7 ~ /^[0134]$/ && $8 == 0' "$log" > "$log.kept" && mv "$log.kept" "$log"; } || exit 1
find "$inputs" -type f | LC_ALL=C sort | awk -v part="$part" -v parts="$parts" 'NR % parts == part' |
  parallel --max-args "$each" --jobs "$at_once" --joblog "$log" --resume "$command"
# The status of `parallel` tells how many commands had one, which isn't a failure here.
exit 0
