(define (problem g1) (:domain g) (:init) (:goal (and (a) (b))))
