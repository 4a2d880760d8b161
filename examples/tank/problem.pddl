(define (problem tank-1)
  (:domain tank)
  (:init (= (level) 1000000000000000))
  (:goal (full)))
