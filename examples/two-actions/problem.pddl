(define (problem l1) (:domain l) (:init) (:goal (b)))
