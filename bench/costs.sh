#!/bin/sh
# Solves the tasks of a folder with 1, 2, 4 and 64 workers, in memory and over a journal, and compares the answers with a list: bench/costs.sh FOLDER
# FOLDER has costs.txt, of which each line is the name of a task's folder in it and what the last line of the answer must be
# (`; cost = N` or `no plan`). Each task's folder has domain.pddl and problem.pddl. Each plan that is printed is validated, and has to be
# valid at the same cost; each journal is certified, and has to show the same answer.
# Ends with status 1 where an answer differs.
here=$(cd "$(dirname "$0")/.." && pwd)
hplan=${HPLAN:-$("$here/tools/program")}
[ -s "$1/costs.txt" ] || { echo "usage: bench/costs.sh FOLDER, which has costs.txt" >&2; exit 2; }
folder=$(mktemp -d)
trap 'rm -rf "$folder"' EXIT
runs=0 validated=0 certified=0 wrong=0

# Compares what was found, and by what, with what the list says: whether it is that.
compare() {
    [ "$2" = "$wanted" ] && return
    echo "$task with $workers workers$over: $1 '$2', and wanted is '$wanted'"
    wrong=1
    return 1
}

# Solves the task with so many workers, over a journal if a name is given: once WORKERS [FILE]
once() {
    workers=$1
    over=${2:+ over a journal}
    runs=$((runs + 1))
    "$hplan" solve "$domain" "$problem" --workers "$workers" ${2:+--journal "$2"} >"$folder/plan" 2>"$folder/told" </dev/null
    compare "solve said" "$(cat "$folder/plan" "$folder/told" | tail -n 1)"
    if [ -s "$folder/plan" ]; then
        compare "validate said" "$("$hplan" validate "$domain" "$problem" "$folder/plan" </dev/null 2>&1 | sed 's/^valid//')" \
            && validated=$((validated + 1))
    fi
    if [ -n "$2" ]; then
        compare "certify said" "$("$hplan" certify "$domain" "$problem" --journal "$2" </dev/null 2>&1 | sed 's/^certified optimal//; s/^certified //')" \
            && certified=$((certified + 1))
        rm -f "$2"
    fi
}

while read -r task wanted || [ -n "$task" ]; do
    domain=$1/$task/domain.pddl
    problem=$1/$task/problem.pddl
    for number in 1 2 4 64; do
        once "$number"
        once "$number" "$folder/journal"
    done
done <"$1/costs.txt"
echo "$runs searches, $validated plans validated, $certified journals certified"
exit $wrong
