(define (problem roads-5-15000000) (:domain roads)
  (:init (= (total-cost) 0) (= (road) 0) (= (walked) 0))
  (:goal (arrived))
  (:metric minimize (total-cost)))
