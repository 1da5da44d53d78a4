#!/usr/bin/env bash
# Does the recipes of docs/MANY-INPUTS.md over 1,000 inputs: GNU parallel on one machine, and tools/many.slurm as three tasks
# of an array, started by hand; each with a run for each input, and with `batch`. Each report is compared with that of
# `shim ref`, each status with what the input is meant to give. A second start does again what the machine failed at first, and
# nothing else, and `run` of the array refuses inputs of one name. Where Slurm is installed, it then gets an array over 200 of
# these inputs, on one node that is started for it in a folder of its own; it is cancelled in the midst and goes on. Ends with
# 1 at the first difference.
# Use: tools/tests/many.sh [JOBS], how many runs at a time, 4 where nothing is said
set -u
cd "$(dirname "$0")/../.." || exit 1
jobs=${1:-4} top=$PWD
shim=$(realpath "${SHIM:-./shim}")
command -v parallel > /dev/null || { echo 'GNU parallel is not installed, and nothing was tried'; exit 0; }
room=$(mktemp -d)
started=()
trap 'kill "${started[@]}" 2> /dev/null; wait; rm -rf "$room"' EXIT
mkdir "$room/bin" && ln -s "$shim" "$room/bin/shim"
PATH=$room/bin:$PATH
cd "$room" || exit 1

fail() { echo "differs: $1" >&2; exit 1; }

# Reads commands, a byte each: `+` and `-` change the level, `.` meets, `?` divides by the level, `!` throws what nobody
# catches, and `#` waits for a meeting to which nobody comes.
cat > program.shim << 'END'
void reader(istream &wire, int &level, int never) throws Over, Bad {
  int byte;
  byte = get wire;
  while (byte != -1) {
    if (byte == 43) level = level + 1;
    else if (byte == 45) level = level - 1;
    else if (byte == 46) next level;
    else if (byte == 63) level = 100 / level;
    else if (byte == 33) throw Bad;
    else if (byte == 35) next never;
    byte = get wire;
  }
  throw Over;
}
void writer(int level, ostream &wire, int &never) {
  while (true) { next level; put wire, level; }
}
void main(istream &wire, ostream &out) throws Bad {
  int level; int never;
  try { reader(wire, level, never); par writer(level, out, never); } catch (Over) { }
}
END
mkdir inputs
python3 - << 'END'
import random
random.seed(7)
for number in range(1000):
    text = "".join(random.choice("+++-..") for _ in range(random.randrange(1, 40)))
    ending = {0: "!", 1: "#+", 2: "-?"}.get(number % 10, "")
    if ending == "-?":
        text, ending = "+", "-?"  # the level is 0 then
    with open("inputs/%04d.txt" % number, "w") as out:
        out.write(text + ending)
    with open("wanted", "a") as out:
        out.write("%04d.txt %d\n" % (number, {"!": 1, "#+": 3, "-?": 1}.get(ending, 0)))
END
mkdir meant
for input in inputs/*.txt; do shim ref program.shim --input "$input" > "meant/${input#inputs/}"; done
modes='run batch'

# The status of each run: of `run` from the log of parallel, of `batch` from the report, and there none of the log may be
# another than the greatest of its inputs'.
compare() { # MODE REPORTS STATUSES..
  local mode=$1 reports=$2 count
  shift 2
  count=$(tail -q -n +2 "$@" | wc -l)
  if [ "$mode" = run ]; then
    tail -q -n +2 "$@" | awk -F '\t' '{ split($9, words, " "); for (i in words) if (words[i] == "--input") print words[i + 1], $7 }' |
      sed 's|.*/||' | LC_ALL=C sort > came
    diff -rq "$reports" "$meant" > differ || fail "a report: $(head -n 1 differ)"
  else
    rm -rf single && mkdir single
    awk '/^input / { parts = split($0, part, "/"); close(out); out = "single/" part[parts]; next } { print > out }' "$reports"/*
    diff -rq single "$meant" > differ || fail "a report of a batch: $(head -n 1 differ)"
    awk '/^input / { parts = split($0, part, "/"); name = part[parts] }
      /^end / { print name, ($2 == "done") ? 0 : ($2 == "blocked") ? 3 : ($2 == "spent") ? 4 : 1 }' "$reports"/* | LC_ALL=C sort > came
    [ "$count" = "$(find "$reports" -type f | wc -l)" ] || fail 'a line of the log for each text'
    local file greatest
    for file in "$reports"/*; do
      greatest=$(awk '/^end / { now = ($2 == "done") ? 0 : ($2 == "blocked") ? 3 : ($2 == "spent") ? 4 : 1; if (now > most) most = now } END { print most + 0 }' "$file")
      tail -q -n +2 "$@" | awk -F '\t' -v file="/${file##*/}" -v status="$greatest" \
        '$9 ~ file "$" { found = 1; if ($7 != status) wrong = 1 } END { exit wrong || !found }' || fail "the status of $file"
    done
  fi
  cmp -s came "$wanted" || { diff came "$wanted" | head -n 5; fail "a status by $mode"; }
}

meant=$room/meant wanted=$room/wanted

# A program that the system kills on one input, and that finds no memory for another.
mkdir frail && printf '#!/bin/sh\ncase "$*" in *0007.txt*) kill -9 $$ ;; *0500.txt*) echo no memory; exit 8 ;; esac\nexec %q "$@"\n' "$shim" > frail/shim
chmod 755 frail/shim
failures() { awk -F '\t' '$7 == 137 || $7 == 8' "$@" | wc -l; }

# One machine: what failed at first is done again, and nothing else.
find inputs -type f | LC_ALL=C sort > names
for mode in $modes; do
  mkdir "reports.$mode"
  alone() { # [--resume]
    if [ "$mode" = run ]; then
      parallel "$@" --arg-file names --jobs "$jobs" --joblog statuses.run 'shim run program.shim --workers 1 --input {} > reports.run/{/}'
    else
      parallel "$@" --arg-file names --max-args 64 --jobs "$jobs" --joblog statuses.batch 'shim batch program.shim --workers 1 -- {} > reports.batch/{#}'
    fi
  }
  PATH=$room/frail:$PATH alone 2> /dev/null
  [ "$(failures "statuses.$mode")" = 2 ] || fail 'two failures have a line'
  awk -F '\t' 'NR == 1 || $7 ~ /^[0134]$/ && $8 == 0' "statuses.$mode" > kept && mv kept "statuses.$mode"
  touch before && alone --resume
  [ "$(find "reports.$mode" -type f -newer before | wc -l)" = 2 ] || fail 'just what failed is done again'
  compare "$mode" "reports.$mode" "statuses.$mode"
done

# The array, as three tasks.
task() { # PART RESULTS MODE [INPUTS]
  SLURM_ARRAY_TASK_ID=$1 SLURM_ARRAY_TASK_COUNT=3 SLURM_CPUS_PER_TASK=$jobs bash "$top/tools/many.slurm" program.shim "${4:-inputs}" "$2" "$3"
}
for mode in $modes; do
  for part in 0 1 2; do PATH=$room/frail:$PATH task $part "results.$mode" "$mode" 2> /dev/null || fail "task $part ends with $?"; done
  [ "$(failures "results.$mode"/statuses.*)" = 2 ] || fail 'two failures of the array have a line'
  touch before
  for part in 0 1 2; do task $part "results.$mode" "$mode" || fail "task $part ends with $?"; done
  [ "$(find "results.$mode/reports" -type f -newer before | wc -l)" = 2 ] || fail 'an array does again just what failed'
  compare "$mode" "results.$mode/reports" "results.$mode"/statuses.*
  touch before && task 1 "results.$mode" "$mode"
  [ -z "$(find "results.$mode/reports" -newer before)" ] || fail 'a run is done again'
done

# Two inputs of one name would have one report by `run`.
mkdir -p twins/a twins/b && cp inputs/0003.txt twins/a && cp inputs/0005.txt twins/b/0003.txt
told=$(task 0 refused run twins 2>&1) && fail 'inputs of one name are taken by run'
case $told in *'called 0003.txt'*) ;; *) fail "of inputs of one name is told: $told" ;; esac
for part in 0 1 2; do task $part twins.both batch twins || fail "task $part ends with $?"; done
[ "$(cat twins.both/reports/* | grep -c '^input ')" = 2 ] || fail 'a batch takes inputs of one name'
said="1000 inputs, each by one machine and by an array of three tasks, by $modes: what failed was done again, statuses $(cut -d ' ' -f 2 wanted | sort | uniq -c | awk '{ printf "%s%s of %d", (NR > 1 ? ", " : ""), $1, $2 }'), all as wanted"
for tool in slurmctld slurmd munged sbatch; do
  PATH=$PATH:/usr/sbin command -v $tool > /dev/null || { echo "$said; $tool is not installed, so Slurm was not tried"; exit 0; }
done

# Slurm: one node, this machine, whose daemons belong to who runs this script.
PATH=$PATH:/usr/sbin
mkdir slurm slurm/state slurm/spool few
for number in $(seq 0 199); do cp "inputs/$(printf %04d "$number").txt" few; done
head -c 128 /dev/urandom > slurm/key && chmod 600 slurm/key
chmod 755 "$room" slurm
cat > slurm/slurm.conf << END
ClusterName=one
SlurmctldHost=localhost
SlurmctldPort=26817
SlurmdPort=26818
AuthInfo=socket=$room/slurm/munge
SlurmUser=$(id -un)
SlurmdUser=$(id -un)
SlurmctldPidFile=$room/slurm/slurmctld.pid
SlurmdPidFile=$room/slurm/slurmd.pid
StateSaveLocation=$room/slurm/state
SlurmdSpoolDir=$room/slurm/spool
ProctrackType=proctrack/linuxproc
TaskPlugin=task/none
SelectType=select/cons_tres
SelectTypeParameters=CR_Core_Memory
NodeName=localhost CPUs=$(nproc) RealMemory=1000
PartitionName=all Nodes=ALL Default=YES
END
export SLURM_CONF=$room/slurm/slurm.conf
munged --foreground --force --key-file=slurm/key --socket="$room/slurm/munge" --pid-file="$room/slurm/munged.pid" \
  --log-file="$room/slurm/munged.log" --seed-file="$room/slurm/seed" > slurm/out.munged 2>&1 &
started+=($!)
sleep 1
slurmctld -D > slurm/out.slurmctld 2>&1 &
started+=($!)
slurmd -D -N localhost > slurm/out.slurmd 2>&1 &
started+=($!)
for _ in $(seq 60); do sinfo -h -t idle 2> /dev/null | grep -q . && break; sleep 1; done
sinfo -h -t idle 2> /dev/null | grep -q . || { tail -n 3 slurm/out.*; fail 'Slurm has no node that is idle'; }

submit() { # RESULTS MODE
  sbatch --parsable --array=0-3 --cpus-per-task=1 --mem=200 "$top/tools/many.slurm" program.shim few "$1" "$2"
}
ended() { for _ in $(seq 300); do [ -z "$(squeue -h -j "$1" 2> /dev/null)" ] && return; sleep 1; done; fail "the array $1 doesn't end"; }
mkdir meant.few && for input in few/*; do cp "meant/${input#few/}" meant.few; done
head -n 200 wanted > wanted.few
meant=$room/meant.few wanted=$room/wanted.few
for mode in $modes; do
  ended "$(submit "slurm.$mode" "$mode")"
  [ ! -s "$(ls shim-*.log | head -n 1)" ] || fail "$(head -n 1 shim-*.log)"
  compare "$mode" "slurm.$mode/reports" "slurm.$mode"/statuses.*
done

# Cancelled in the midst, by runs that take long, and then begun anew.
mkdir slow && printf '#!/bin/sh\nsleep 1\nexec %q "$@"\n' "$shim" > slow/shim && chmod 755 slow/shim
number=$(PATH=$room/slow:$PATH submit cut run)
for _ in $(seq 60); do [ "$(cat cut/statuses.* 2> /dev/null | wc -l)" -gt 14 ] && break; sleep 1; done
scancel "$number"
ended "$number"
cat cut/statuses.* | awk -F '\t' '$7 ~ /^[0134]$/ && $8 == 0' | wc -l > done.before
[ "$(cat done.before)" -lt 200 ] || fail 'the array was over before it was cancelled'
touch before
ended "$(submit cut run)"
compare run cut/reports cut/statuses.*
[ "$(find cut/reports -type f -not -newer before | wc -l)" = "$(cat done.before)" ] || fail 'a run of a cancelled array is done again'
echo "$said; Slurm: 200 inputs by an array of four tasks, by $modes, the same; an array that was cancelled after $(cat done.before) runs went on and did none of them again"
