; Roads that are walked step by step, and lead nowhere; one can ride at once, which costs more. A
; search has one open node on each road, and that waits until its parent is in the journal. So it
; lasts long, on less than one processor. tools/long kills it.
(define (domain roads)
  (:requirements :strips :numeric-fluents :action-costs)
  (:predicates (arrived))
  (:functions (road) (walked) (total-cost))
  (:action next-road
    :parameters ()
    :precondition (and (= (walked) 0) (< (road) 5))
    :effect (increase (road) 1))
  (:action walk
    :parameters ()
    :precondition (and (> (road) 0) (< (walked) 15000000))
    :effect (and (increase (walked) 1) (increase (total-cost) 1)))
  (:action arrive
    :parameters ()
    :precondition (> (walked) 15000000)
    :effect (and (arrived) (increase (total-cost) 1)))
  (:action ride
    :parameters ()
    :precondition (= (road) 0)
    :effect (and (arrived) (increase (total-cost) 150000000))))
