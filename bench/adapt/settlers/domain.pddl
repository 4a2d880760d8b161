(define (domain civ)
  (:requirements :typing :fluents :negative-preconditions :timed-initial-literals)
  (:types place vehicle - store
          resource)
  (:predicates (connected-by-land ?p1 - place ?p2 - place)
               (has-cabin ?p - place) (has-saw-mill ?p - place) (woodland ?p - place)
               (housing-needed ?p - place)
               (is-at ?v - vehicle ?p - place))
  (:functions (available ?r - resource ?s - store)
              (space-in ?v - vehicle)
              (labour)
              (resource-use)
              (pollution)
              (housing ?p - place))
  (:constants timber wood - resource)

  (:action build-cabin
   :parameters (?p - place)
   :precondition (and (woodland ?p) (not (has-cabin ?p)))
   :effect (and (increase labour 1) (has-cabin ?p)))

  (:action fell-timber
   :parameters (?p - place)
   :precondition (has-cabin ?p)
   :effect (and (increase (available timber ?p) 1) (increase labour 0.5)))

  (:action build-saw-mill
   :parameters (?p - place)
   :precondition (and (not (has-saw-mill ?p)) (>= (available timber ?p) 2))
   :effect (and (increase labour 2.0) (decrease (available timber ?p) 2) (has-saw-mill ?p)))

  (:action saw-wood
   :parameters (?p - place)
   :precondition (and (has-saw-mill ?p) (>= (available timber ?p) 1.0))
   :effect (and (decrease (available timber ?p) 1) (increase (available wood ?p) 1.5)
     (increase (pollution) 2)))

  (:action load
   :parameters (?v - vehicle ?p - place ?r - resource)
   :precondition (and (is-at ?v ?p) (>= (available ?r ?p) 1)
     (not (> (- 5 (space-in ?v) 1) 3)))
   :effect (and (decrease (space-in ?v) 1) (increase (available ?r ?v) 1)
     (decrease (available ?r ?p) 1) (increase labour 0.25)))

  (:action move-cart
   :parameters (?v - vehicle ?p1 - place ?p2 - place)
   :precondition (and (connected-by-land ?p1 ?p2) (is-at ?v ?p1))
   :effect (and (not (is-at ?v ?p1)) (is-at ?v ?p2) (increase labour 2)
     (increase (resource-use) (/ (+ (available timber ?v) (available wood ?v) 1) 2))))

  (:action build-house
   :parameters (?v - vehicle ?p - place)
   :precondition (and (is-at ?v ?p) (>= (+ (available wood ?v) (available timber ?v) 0.0) 2)
     (>= (available wood ?v) 1) (housing-needed ?p))
   :effect (and (decrease (available wood ?v) 1) (decrease (available timber ?v) 1)
     (increase (space-in ?v) 2) (increase (housing ?p) 1))))
