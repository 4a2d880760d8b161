#!/bin/sh
# Times the validation of a plan of 100,000 steps, or of as many as the argument says: bench/validate.sh [STEPS]
# A truck drives round a road of 50 places; each step reads and changes its fuel and adds the road's length to the cost, and every
# forty-first step fills the truck up. The greatest size of the process is printed too, in kilobytes.
set -e
steps=${1:-100000}
folder=$(mktemp -d)
trap 'rm -rf "$folder"' EXIT
cat >"$folder/domain" <<'END'
(define (domain round) (:requirements :typing :fluents)
  (:types truck place)
  (:predicates (at ?t - truck ?p - place) (road ?from ?to - place))
  (:functions (fuel ?t - truck) (length ?from ?to - place) (total-cost))
  (:action drive :parameters (?t - truck ?from ?to - place)
    :precondition (and (at ?t ?from) (road ?from ?to) (>= (fuel ?t) 1))
    :effect (and (not (at ?t ?from)) (at ?t ?to) (decrease (fuel ?t) 1) (increase (total-cost) (length ?from ?to))))
  (:action fill :parameters (?t - truck) :precondition (< (fuel ?t) 40)
    :effect (and (assign (fuel ?t) 40) (increase (total-cost) 3))))
END
awk 'BEGIN {
    print "(define (problem fifty) (:domain round)\n (:objects t - truck"
    for (i = 0; i < 50; i++) printf " p%d", i
    print " - place)\n (:init (at t p0) (= (fuel t) 40) (= (total-cost) 0)"
    for (i = 0; i < 50; i++) printf " (road p%d p%d) (= (length p%d p%d) %d)", i, (i + 1) % 50, i, (i + 1) % 50, 1 + i % 7
    print ")\n (:goal (>= (fuel t) 0)) (:metric minimize (total-cost)))"
}' >"$folder/problem"
awk -v steps="$steps" 'BEGIN {
    place = 0
    for (i = 1; i <= steps; i++)
        if (i % 41 == 0) print "(fill t)"
        else { printf "(drive t p%d p%d)\n", place, (place + 1) % 50; place = (place + 1) % 50 }
}' >"$folder/plan"
here=$(cd "$(dirname "$0")/.." && pwd)
hplan=${HPLAN:-$("$here/tools/program")}
/usr/bin/time -f '%e s, %M KB' -o "$folder/taken" "$hplan" validate "$folder/domain" "$folder/problem" "$folder/plan" >"$folder/said"
echo "$steps steps: $(cat "$folder/said"), $(tail -n 1 "$folder/taken")"
