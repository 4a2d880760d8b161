#!/bin/sh
# Prints the time and the memory that it takes to read and check a domain and a problem: bench/read.sh [ATOMS],
# 100000 if ATOMS is not given. The problem has 10000 objects, ATOMS initial atoms, and a value for every ten of
# these. Then the same is done with 8000 objects of ordinary names, and with 8000 whose names all collide
# (bench/check.sh compares these). Measured is `validate` of an empty plan, which grounds nothing.
set -e
folder=$(mktemp -d)
trap 'rm -rf "$folder"' EXIT
cat >"$folder/domain.pddl" <<'END'
(define (domain roads)
  (:types truck van - vehicle vehicle parcel - movable city depot - place movable place - thing thing)
  (:predicates (ready ?v - vehicle) (at ?m - movable ?p - place) (route ?v - vehicle ?from ?to - place))
  (:functions (total-cost) (fuel ?v - vehicle) (length ?from ?to - place))
  (:action drive :parameters (?v - vehicle ?from ?to - place)
    :precondition (and (ready ?v) (at ?v ?from) (route ?v ?from ?to) (>= (fuel ?v) 1))
    :effect (and (not (at ?v ?from)) (at ?v ?to) (decrease (fuel ?v) 1) (increase (total-cost) (length ?from ?to)))))
END
awk -v atoms="${1:-100000}" '
    BEGIN {
        print "(define (problem long) (:domain roads)\n (:objects"
        for (i = 0; i < 2000; i++)
            printf "  truck-%d - truck van-%d - van parcel-%d - parcel city-%d - city depot-%d - depot\n", i, i, i, i, i
        print ")\n (:init (= (total-cost) 0)"
        for (i = 0; i < atoms; i++) {
            from = int(i / 5) % 2000
            to = (i * 7 + int(i / 2000)) % 2000
            if (i % 5 == 0) printf "  (ready truck-%d)\n", from
            else if (i % 5 == 1) printf "  (at van-%d city-%d)\n", from, to
            else if (i % 5 == 2) printf "  (at parcel-%d depot-%d)\n", from, to
            else if (i % 5 == 3) printf "  (route truck-%d city-%d depot-%d)\n", from, from, to
            else printf "  (route van-%d depot-%d city-%d)\n", from, from, to
        }
        for (i = 0; i < int(atoms / 10); i++)
            printf "  (= (length city-%d depot-%d) %d)\n", i % 2000, int(i / 2000), i % 100 + 1
        print ")\n (:goal (at parcel-0 city-0)) (:metric minimize (total-cost)))"
    }' >"$folder/problem.pddl"
here=$(cd "$(dirname "$0")/.." && pwd)
program=${HPLAN:-$("$here/tools/program")}
for kind in ordinary colliding; do
    awk -v kind="$kind" -f "$here/bench/names.awk" >"$folder/$kind.pddl"
done
: >"$folder/plan"
for name in problem ordinary colliding; do
    printf '%s: ' "$name"
    /usr/bin/time -f '%U s, %M kB' -o "$folder/taken" \
        "$program" validate "$folder/domain.pddl" "$folder/$name.pddl" "$folder/plan" >"$folder/said" 2>&1 || true
    tail -n 1 "$folder/taken"
done
