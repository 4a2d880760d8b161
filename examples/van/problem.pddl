; The short road takes 9, more than the tank holds: by way of the mill it is 4, 1 for a full tank, and 6.
(define (problem to-town)
  (:domain van)
  (:objects farm mill town - place)
  (:init (at farm) (pump mill) (road farm town) (road farm mill) (road mill town)
         (= (length farm town) 9) (= (length farm mill) 4) (= (length mill town) 6)
         (= (fuel) 7) (= (tank) 8) (= (total-cost) 0))
  (:goal (at town))
  (:metric minimize (total-cost)))
