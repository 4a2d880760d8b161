#!/bin/sh
# Times the grounding of a logistics-like problem, of texts that a product of all objects would never end on, and of the tasks in each
# FOLDER, which has domain.pddl and problem.pddl: bench/ground.sh [FOLDER..]
# The first has 200 packages, 10 trucks and 50 places with a road map that never changes; each of its packages can be loaded and
# unloaded everywhere, so that it has some 200,000 actions. Of the others each is a schema over 1000 objects whose conditions bind
# its parameters; three have no instance at all. The greatest size of the process is printed beside each, in kilobytes.
set -e
folder=$(mktemp -d)
trap 'rm -rf "$folder"' EXIT
cat >"$folder/logistics-domain" <<'END'
(define (domain logistics) (:requirements :typing)
  (:types package truck - thing place)
  (:predicates (at ?t - thing ?p - place) (in ?g - package ?t - truck) (road ?from ?to - place))
  (:action load :parameters (?g - package ?t - truck ?p - place)
    :precondition (and (at ?t ?p) (at ?g ?p)) :effect (and (not (at ?g ?p)) (in ?g ?t)))
  (:action unload :parameters (?g - package ?t - truck ?p - place)
    :precondition (and (at ?t ?p) (in ?g ?t)) :effect (and (not (in ?g ?t)) (at ?g ?p)))
  (:action drive :parameters (?t - truck ?from ?to - place)
    :precondition (and (at ?t ?from) (road ?from ?to)) :effect (and (not (at ?t ?from)) (at ?t ?to))))
END
awk 'BEGIN {
    print "(define (problem busy) (:domain logistics)\n (:objects"
    for (i = 0; i < 200; i++) printf " g%d", i
    print " - package"
    for (i = 0; i < 10; i++) printf " t%d", i
    print " - truck"
    for (i = 0; i < 50; i++) printf " p%d", i
    print " - place)\n (:init"
    for (i = 0; i < 200; i++) printf " (at g%d p%d)", i, i % 50
    for (i = 0; i < 10; i++) printf " (at t%d p%d)", i, i * 5
    for (i = 0; i < 50; i++) printf " (road p%d p%d) (road p%d p%d)", i, (i + 1) % 50, (i + 1) % 50, i
    for (i = 0; i < 50; i++) printf " (road p%d p%d)", i, (i * 7 + 3) % 50
    print ")\n (:goal (and"
    for (i = 0; i < 200; i++) printf " (at g%d p%d)", i, (i + 13) % 50
    print ")))"
}' >"$folder/logistics-problem"

# A problem of a domain named d with 1000 objects, and with what the argument adds for each of them.
objects() {
    awk -v each="$1" 'BEGIN {
        print "(define (problem many) (:domain d) (:objects"
        for (i = 0; i < 1000; i++) printf " o%d", i
        print ") (:init"
        for (i = 0; i < 1000 && each != ""; i++) { fact = each; gsub(/@/, "o" i, fact); printf " %s", fact }
        print ") (:goal (and)))"
    }'
}

# A domain of one schema of parameters $1 with condition $2, where t is a type without objects.
schema() {
    printf '(define (domain d) (:requirements :typing :negative-preconditions :equality) (:types t) (:predicates (s ?x) (u ?x) (r ?x ?y) (q))\n'
    printf ' (:action a :parameters (%s) :precondition (and %s) :effect (q)))\n' "$1" "$2"
}
schema '?a ?b ?c ?d ?e' '(= ?a ?b) (= ?b ?c) (= ?c ?d) (= ?d ?e)' >"$folder/equal-domain"
objects '' >"$folder/equal-problem"
schema '?a ?b ?c ?d ?e ?f' '(not (s ?f))' >"$folder/static-domain"
objects '(s @)' >"$folder/static-problem"
schema '?a ?b ?c ?d ?e ?f - t' '' | sed 's/?e ?f - t/?e - object ?f - t/' >"$folder/empty-domain"
objects '' >"$folder/empty-problem"
schema '?a ?b ?c ?d' '(s ?a) (s ?b) (s ?c) (u ?d)' >"$folder/unreached-domain"
objects '(s @)' >"$folder/unreached-problem"
schema '?a ?b' '(r ?a ?b) (r ?b ?a)' >"$folder/mutual-domain"
objects '(r @ o0) (r o0 @)' >"$folder/mutual-problem"

# Grounds the task of two files, and prints under a name how many actions it has, the time and the memory.
row() {
    /usr/bin/time -f '%U s, %M kB' -o "$folder/taken" "$program" ground "$2" "$3" >"$folder/said"
    echo "$1: $(head -n 1 "$folder/said"), $(tail -n 1 "$folder/taken")"
}
here=$(cd "$(dirname "$0")/.." && pwd)
program=${HPLAN:-$("$here/tools/program")}
for name in logistics equal static empty unreached mutual; do
    row "$name" "$folder/$name-domain" "$folder/$name-problem"
done
for task in "$@"; do
    row "$(basename "$task")" "$task/domain.pddl" "$task/problem.pddl"
done
