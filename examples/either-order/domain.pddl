(define (domain g) (:predicates (a) (b))
  (:action put-a :parameters () :precondition (not (a)) :effect (a))
  (:action put-b :parameters () :precondition (not (b)) :effect (b)))
