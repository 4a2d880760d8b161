(define (domain l) (:predicates (a) (b))
  (:action set-a :parameters () :precondition (not (a)) :effect (a))
  (:action set-b :parameters () :precondition (a) :effect (b)))
