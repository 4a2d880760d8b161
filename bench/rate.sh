#!/bin/sh
# How many entries a second a search by threads makes in its midst: bench/rate.sh FOLDER LOW HIGH [RUNS]
# FOLDER has domain.pddl and problem.pddl of a task whose search has more than HIGH entries. `solve` runs over a journal with 1 and with 4
# workers, to LOW entries and to HIGH (--limit), by turns. What is printed is how many entries more there are by how much longer it took,
# medians of RUNS runs (7, if not given): so neither the start is in it, of which most is to read the texts and to make the file, nor the end,
# where the nodes that are left are only settled as bounded. The journals stand in TMPDIR.
# It tells something only where nothing else runs, also not beside this system on the same processors: a run counts only if before it and
# after it a loop on each of four cores at once took at most a tenth longer than the least that such a loop ever took (TOLERANCE, in per cent,
# if that is never so). After 40 times RUNS turns without runs enough it gives up.
here=$(cd "$(dirname "$0")/.." && pwd)
hplan=${HPLAN:-$("$here/tools/program")}
[ $# -ge 3 ] || { echo "usage: bench/rate.sh FOLDER LOW HIGH [RUNS]" >&2; exit 2; }
task=$1 low=$2 high=$3 runs=${4:-7} tolerance=${TOLERANCE:-10}
folder=$(mktemp -d)
trap 'rm -rf "$folder"' EXIT

# The nanoseconds that a loop takes on each of four cores at once.
loops() {
    for core in 0 1 2 3; do
        taskset -c $core sh -c 'begun=$(date +%s%N)
            awk "BEGIN { for (i = 0; i < 300000; i++) sum += i }"
            echo $(($(date +%s%N) - begun))' &
    done
    wait
}

# Whether all four cores are idle: of three tries, the middle one by its slowest loop.
is_idle() {
    slowest=$(for try in 1 2 3; do loops | sort -n | sed -n '$p'; done | sort -n | sed -n 2p)
    [ $((slowest * 100)) -le $((fastest * (100 + tolerance))) ]
}

# The entries, and the nanoseconds of one run: $1 workers, to $2 entries.
once() {
    rm -f "$folder/journal"
    begun=$(date +%s%N)
    "$hplan" solve "$task/domain.pddl" "$task/problem.pddl" --workers "$1" --limit "$2" --journal "$folder/journal" >/dev/null 2>&1 </dev/null
    ended=$(date +%s%N)
    entries=$("$hplan" inspect --journal "$folder/journal" 2>/dev/null | awk '$1 == "entries" { print $2 }')
    echo "$entries $((ended - begun))"
}

# Whether there are runs enough with $1 workers to $2 entries.
has_enough() {
    [ -e "$folder/$1 $2" ] && [ "$(wc -l < "$folder/$1 $2")" -ge "$runs" ]
}

fastest=$(for try in $(seq 20); do loops; done | sort -n | sed -n 1p)
missing=1
for turn in $(seq $((40 * runs))); do
    missing=0
    for kind in "1 $low" "4 $low" "1 $high" "4 $high"; do
        has_enough $kind && continue
        missing=1
        is_idle || continue
        run=$(once $kind)
        is_idle && echo "$run" >> "$folder/$kind"
    done
    [ $missing = 1 ] || break
done
[ $missing = 0 ] || { echo "four cores are idle too seldom" >&2; exit 1; }

# The run of the median time.
median() {
    sort -n -k 2 "$folder/$1 $2" | sed -n "$(((runs + 1) / 2))p"
}

for workers in 1 4; do
    echo "$workers $(median "$workers" "$low") $(median "$workers" "$high")"
done | awk '{
    rate[$1] = 1e9 * ($4 - $2) / ($5 - $3)
    printf "%d workers: %d entries in %.3f s, %d in %.3f s: %.0f a second\n", $1, $2, $3 / 1e9, $4, $5 / 1e9, rate[$1]
} END { printf "4 workers by 1: %.2f\n", rate[4] / rate[1] }'
