#!/bin/sh
# Counts what a search by threads takes: bench/threads.sh FOLDER..
# Each FOLDER has domain.pddl and problem.pddl. For each: the entries of the journal of `solve` with 1, 2 and 4 workers; the time of `solve`
# with one worker over a journal, as a multiple of the time of the same search in memory; the entries a second of 4 workers as a multiple of
# those of 1, both over a journal; and the instructions an entry of one worker over a journal, the whole program counted.
# The journals stand in TMPDIR. Times are the least of three runs, and tell something only where nothing else runs. Needs valgrind.
here=$(cd "$(dirname "$0")/.." && pwd)
hplan=${HPLAN:-$("$here/tools/program")}
[ $# -gt 0 ] || { echo "usage: bench/threads.sh FOLDER.." >&2; exit 2; }
folder=$(mktemp -d)
trap 'rm -rf "$folder"' EXIT

# The seconds that `solve` takes with these words, the least of three runs; the journal is that of the last.
seconds() {
    for run in 1 2 3; do
        rm -f "$folder/journal"
        /usr/bin/time -f %e -o "$folder/time" "$hplan" solve "$task/domain.pddl" "$task/problem.pddl" "$@" >/dev/null 2>&1 </dev/null
        tail -n 1 "$folder/time"
    done | sort -n | head -n 1
}

# The entries of the journal.
entries() {
    "$hplan" inspect --journal "$folder/journal" 2>/dev/null | awk '$1 == "entries" { print $2 }'
}

echo "| Task | Entries, 1 worker | 2 | 4 | Time over a journal by that in memory | Entries a second, 4 workers by 1 | Instructions an entry |"
echo "|---|---|---|---|---|---|---|"
for task in "$@"; do
    memory=$(seconds --workers 1)
    one=$(seconds --workers 1 --journal "$folder/journal")
    first=$(entries)
    two=$(seconds --workers 2 --journal "$folder/journal")
    second=$(entries)
    four=$(seconds --workers 4 --journal "$folder/journal")
    fourth=$(entries)
    rm -f "$folder/journal"
    valgrind --fair-sched=yes --tool=callgrind --callgrind-out-file=/dev/null "$hplan" solve "$task/domain.pddl" "$task/problem.pddl" --workers 1 \
        --journal "$folder/journal" 2>"$folder/told" >/dev/null </dev/null
    counted=$(awk '/Collected *:/ { print $4 }' "$folder/told")
    [ -n "$counted" ] || { echo "valgrind has counted nothing" >&2; exit 1; }
    echo "$(basename "$task") $first $second $fourth $memory $one $four $counted $(entries)" | awk '{
        ratio = $5 > 0 ? sprintf("%.2f", $6 / $5) : "-"
        faster = $7 > 0 && $6 > 0 ? sprintf("%.2f", ($4 / $7) / ($2 / $6)) : "-"
        printf "| %s | %d | %d | %d | %s | %s | %.0f |\n", $1, $2, $3, $4, ratio, faster, $8 / $9
    }'
done
