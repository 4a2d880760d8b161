(define (problem sliding) (:domain sliding)
  (:objects t1 t2 t3 t4 t5 t6 t7 t8 - tile p0 p1 p2 p3 p4 p5 p6 p7 p8 - cell)
  (:init (at t8 p0) (at t6 p2) (at t5 p3) (at t4 p4) (at t7 p5) (at t2 p6) (at t3 p7) (at t1 p8) (blank p1) (next p0 p1) (next p0 p3) (next p1 p0) (next p1 p2) (next p1 p4) (next p2 p1) (next p2 p5) (next p3 p4) (next p3 p0) (next p3 p6) (next p4 p3) (next p4 p5) (next p4 p1) (next p4 p7) (next p5 p4) (next p5 p2) (next p5 p8) (next p6 p7) (next p6 p3) (next p7 p6) (next p7 p8) (next p7 p4) (next p8 p7) (next p8 p5))
  (:goal (and (at t1 p1) (at t2 p2) (at t3 p3) (at t4 p4) (at t5 p5) (at t6 p6) (at t7 p7) (at t8 p8))))
