#!/bin/sh
# Prints how much memory texts of 2 MB take until they are solved or refused, as multiples of the text's size: bench/memory.sh
# Each is a short domain and problem in which one part is said again and again. What a process takes without any text, some 2 MB, is
# counted too.
set -e
here=$(cd "$(dirname "$0")/.." && pwd)
hplan=${HPLAN:-$("$here/tools/program")}
folder=$(mktemp -d)
trap 'rm -rf "$folder"' EXIT
long=$(printf '%255s' '' | tr ' ' t)

# Repeats $1 as often as $2 says.
repeated() {
    awk -v part="$1" -v count="$2" 'BEGIN { for (i = 0; i < count; i++) printf "%s", part }'
}

# Repeats $1 up to 2 MB.
filled() {
    repeated "$1" $((2000000 / ${#1} + 1))
}

# The domain and the problem stand on standard input, a line each, with @ where the part named $2 is repeated; $1 is what is printed.
row() {
    read -r domain
    read -r problem
    filled "$2" >"$folder/part"
    for text in domain problem; do
        eval "line=\$$text"
        printf '%s' "${line%%@*}" >"$folder/$text"
        case $line in *@*) cat "$folder/part" >>"$folder/$text"; printf '%s' "${line#*@}" >>"$folder/$text" ;; esac
    done
    /usr/bin/time -f %M -o "$folder/peak" "$hplan" solve "$folder/domain" "$folder/problem" >"$folder/said" 2>&1 || true
    size=$(cat "$folder/domain" "$folder/problem" | wc -c)
    awk -v name="$1" -v kilobytes="$(tail -n 1 "$folder/peak")" -v size="$size" -v said="$(head -c 60 "$folder/said" | tr '\n' ' ')" \
        'BEGIN { printf "| %s | %.1f | %s |\n", name, kilobytes * 1024 / size, said }'
}

plain='(define (domain l) (:predicates (a) (b)))'
numeric='(define (domain l) (:predicates (b)) (:functions (a)))'
unary='(define (domain l) (:predicates (a ?x) (b)))'
binary='(define (domain l) (:predicates (a ?x ?y) (b)))'
simple='(define (problem p) (:domain l) (:init) (:goal (b)))'
echo "| A text full of | Times its size | What is told |"
echo "|---|---|---|"
printf '%s\n' "(define (domain l) (:types @- $long))" "$simple" | row 'types of a long type' 'a '
printf '%s\n' "$plain" "(define (problem p) (:domain l) (:objects @- $long) (:init) (:goal (b)))" | row 'objects of a long type' 'a '
printf '%s\n' "$plain" '(define (problem p) (:domain l) (:objects @) (:init) (:goal (b)))' | row 'objects, each with a type' 'a - t '
printf '%s\n' '(define (domain l) (:predicates @))' "$simple" | row 'predicates' '(a)'
printf '%s\n' "$plain" '(define (problem p) (:domain l) (:init @) (:goal (c)))' | row 'initial atoms' '(a)'
printf '%s\n' "$unary" '(define (problem p) (:domain l) (:objects o) (:init @) (:goal (c)))' | row 'initial atoms of one term' '(a o)'
printf '%s\n' "$binary" '(define (problem p) (:domain l) (:objects o) (:init @) (:goal (c)))' | row 'initial atoms of two terms' '(a o o)'
printf '%s\n' "$plain" '(define (problem p) (:domain l) (:init @) (:goal (c)))' | row 'initial atoms that are denied' '(not(a))'
printf '%s\n' "$plain" '(define (problem p) (:domain l) (:init (a @)) (:goal (c)))' | row 'terms of an atom' 'a '
printf '%s\n' "$numeric" '(define (problem p) (:domain l) (:init @) (:goal (c)))' | row 'first values' '(=(a)1)'
printf '%s\n' "$plain" '(define (problem p) (:domain l) (:init) (:goal (and @ (c))))' | row 'goals that are atoms' '(a)'
printf '%s\n' "$unary" '(define (problem p) (:domain l) (:objects o) (:init) (:goal (and @ (c))))' | row 'goals of one term' '(a o)'
printf '%s\n' "$binary" '(define (problem p) (:domain l) (:objects o) (:init) (:goal (and @ (c))))' | row 'goals of two terms' '(a o o)'
printf '%s\n' "$plain" '(define (problem p) (:domain l) (:init) (:goal (and @ (c))))' | row 'goals that are denied' '(not(a))'
printf '%s\n' "$plain" '(define (problem p) (:domain l) (:init) (:goal (and @ (c))))' | row 'empty goals' '()'
printf '%s\n' "$plain" '(define (problem p) (:domain l) (:init) (:goal (and @ (c))))' | row 'goals in goals' '(and(a))'
printf '%s\n' "$plain" '(define (problem p) (:domain l) (:init) (:goal (and @ (c))))' | row 'comparisons of numbers' '(< 1 1)'
printf '%s\n' "$numeric" '(define (problem p) (:domain l) (:init) (:goal (and @ (c))))' | row 'comparisons of a fluent' '(<(a)1)'
printf '%s\n' "$numeric" '(define (problem p) (:domain l) (:init) (:goal (and @ (c))))' | row 'comparisons of two fluents' '(<(a)(a))'
printf '%s\n' "$plain" '(define (problem p) (:domain l) (:init) (:goal (and @ (c))))' | row 'sums' "(<$(repeated '(+' 60) 1 1)$(repeated '1)' 60)"
printf '%s\n' "$plain" '(define (problem p) (:domain l) (:init) (:goal (and @ (c))))' | row 'negations' "(<$(repeated '(-' 60) 1$(repeated ')' 60) 1)"
printf '%s\n' "$plain" '(define (problem p) (:domain l) (:objects o) (:init) (:goal (and @ (c))))' | row 'equalities of objects' '(= o o)'
printf '%s\n' '(define (domain l) (:predicates (a) (b)) (:action s :parameters () :effect (and @ (c))))' "$simple" | row 'effects that are atoms' '(a)'
printf '%s\n' '(define (domain l) (:predicates (a) (b)) (:action s :parameters () :effect (and @ (c))))' "$simple" | row 'effects that are denied' '(not(a))'
printf '%s\n' '(define (domain l) (:predicates (b)) (:functions (a)) (:action s :parameters () :effect (and @ (c))))' "$simple" | row 'increases' '(increase(a)1)'
printf '%s\n' '(define (domain l) (:predicates (b)) (:functions @))' "$simple" | row 'functions' '(a)'
printf '%s\n' '(define (domain l) (:predicates (b) (a @)))' "$simple" | row 'parameters' '?a '
printf '%s\n' "(define (domain l) @)" "$simple" | row 'empty lists' '()'
printf '%s\n' "(define (domain l) @" "$simple" | row 'lists of a name, one left open' '(a)'
