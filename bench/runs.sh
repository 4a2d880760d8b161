#!/bin/sh
# Solves the tasks of folders with 1 and with 4 workers, in memory: bench/runs.sh FOLDER..
# Each FOLDER has costs.txt, of which each line begins with the name of a task's folder in it. For each task and number of
# workers: the entries, the seconds of the whole run, and the most memory of the process in MB, of the run that is the second
# of three by its seconds. Times tell something only where nothing else runs.
here=$(cd "$(dirname "$0")/.." && pwd)
hplan=${HPLAN:-$("$here/tools/program")}
[ -s "$1/costs.txt" ] || { echo "usage: bench/runs.sh FOLDER.., each of which has costs.txt" >&2; exit 2; }
folder=$(mktemp -d)
trap 'rm -rf "$folder"' EXIT

# The cells of the task with $1 workers.
cells() {
    for run in 1 2 3; do
        begun=$(date +%s%N)
        "$hplan" solve "$task/domain.pddl" "$task/problem.pddl" --workers "$1" --stats 2>"$folder/told" >/dev/null </dev/null
        ended=$(date +%s%N)
        awk -v nanoseconds=$((ended - begun)) '/^entries: / { entries = $2 } /^memory kB: / { memory = $3 }
            END { printf "%.3f | %d | %.1f\n", nanoseconds / 1e9, entries, memory / 1024 }' "$folder/told"
    done | sort -n | sed -n 2p
}

echo "| Task | Seconds, 1 worker | Entries | MB | Seconds, 4 workers | Entries | MB |"
echo "|---|---|---|---|---|---|---|"
for tasks in "$@"; do
    while read -r name _cost; do
        task=$tasks/$name
        echo "| $name | $(cells 1) | $(cells 4) |"
    done <"$tasks/costs.txt"
done
