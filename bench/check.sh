#!/bin/sh
# Compares the check of 8000 names that all collide in a table that hashes with a seed known beforehand (std's
# default) with that of 8000 ordinary ones of the same length: bench/check.sh. The status is 1 if the first takes
# more than twice the instructions of the second. Needs valgrind.
set -e
here=$(cd "$(dirname "$0")/.." && pwd)
program=${HPLAN:-$("$here/tools/program")}
folder=$(mktemp -d)
trap 'rm -rf "$folder"' EXIT
echo "(define (domain roads))" >"$folder/domain.pddl"
: >"$folder/plan"

# The instructions of reading and checking a problem of such names: those of `validate` of an empty plan.
effort() {
    awk -v kind="$1" -f "$here/bench/names.awk" >"$folder/$1.pddl"
    valgrind --fair-sched=yes --tool=cachegrind --cache-sim=no --cachegrind-out-file="$folder/counts" \
        "$program" validate "$folder/domain.pddl" "$folder/$1.pddl" "$folder/plan" 2>&1 >"$folder/said" |
        awk '/I *refs:/ { gsub(",", ""); print $NF }'
}

ordinary=$(effort ordinary)
colliding=$(effort colliding)
awk -v ordinary="$ordinary" -v colliding="$colliding" 'BEGIN {
    if (ordinary <= 0 || colliding <= 0) { print "nothing was measured"; exit 1 }
    printf "ordinary %.0f, colliding %.0f: %.3f times\n", ordinary, colliding, colliding / ordinary
    exit (colliding > 2 * ordinary)
}'
