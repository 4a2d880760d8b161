; A tour that sees each place. All distances stand in one table, which no action changes; states
; differ only in where one is, and in what was seen.
(define (domain tour)
  (:requirements :strips :typing :numeric-fluents :action-costs)
  (:types place)
  (:predicates (at ?p - place) (seen ?p - place))
  (:functions (distance ?from ?to - place) (total-cost))
  (:action travel
    :parameters (?from ?to - place)
    :precondition (at ?from)
    :effect (and (not (at ?from)) (at ?to) (seen ?to)
      (increase (total-cost) (distance ?from ?to)))))
