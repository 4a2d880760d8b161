#!/bin/sh
# Counts one function of hplan in whole searches by one worker: bench/count.sh FUNCTION FOLDER..
# Each FOLDER has domain.pddl and problem.pddl. FUNCTION is a name as the program has it, such as
# 'hd_hmax::hmax::Hmax::value' (`nm -C` lists them; a function that was inlined has none), or `main` for the whole
# search. Printed are the calls, the instructions of a call with all that it calls, and the calls of the allocator
# from inside one. callgrind collects only while the function runs. Needs valgrind.
set -e
here=$(cd "$(dirname "$0")/.." && pwd)
program=${HPLAN:-$("$here/tools/program")}
function=$1
shift
folder=$(mktemp -d)
trap 'rm -rf "$folder"' EXIT

echo "| Task | Calls | Instructions a call | Allocations a call |"
echo "|---|---|---|---|"
for task in "$@"; do
    valgrind --fair-sched=yes --tool=callgrind --collect-atstart=no --toggle-collect="$function" --dump-instr=yes \
        --compress-strings=no --compress-pos=no --callgrind-out-file="$folder/counts" \
        "$program" solve "$task/domain.pddl" "$task/problem.pddl" --workers 1 2>"$folder/told" >"$folder/said"
    echo "$(basename "$task") $(awk '/Collected *:/ { print $4 }' "$folder/told")" \
        "$(awk -v counted="$function" -f "$here/bench/calls.awk" "$folder/counts")" | awk '{
        if ($2 <= 0 || $3 <= 0) { print "nothing was measured: is there such a function?"; exit 1 }
        printf "| %s | %d | %.0f | %.2f |\n", $1, $3, $2 / $3, $4 / $3
    }'
done
