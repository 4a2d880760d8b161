; A tank that holds ten times as much after it is filled.
(define (domain tank)
  (:requirements :fluents)
  (:predicates (full))
  (:functions (level))
  (:action fill
    :parameters ()
    :effect (and (full) (scale-up (level) 10))))
