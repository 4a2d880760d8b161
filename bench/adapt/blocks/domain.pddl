(define (domain BLOCKS)
  (:requirements :strips)
  (:predicates (on ?x ?y) (ontable ?x) (clear ?x) handempty (holding ?x) (done))
  (:action pick-up
    :parameters (?x)
    :precondition (and (clear ?x) (ontable ?x) handempty)
    :effect (and (not (ontable ?x)) (not (clear ?x)) (not handempty) (holding ?x)))
  (:action put-down
    :parameters (?x)
    :precondition (holding ?x)
    :effect (and (not (holding ?x)) (clear ?x) (handempty) (ontable ?x)))
  (:action stack
    :parameters (?x ?y)
    :precondition ((holding ?x) (clear ?y))
    :effect (and (not (holding ?x)) (not (clear ?y)) (clear ?x) (handempty) (on ?x ?y)))
  (:action unstack
    :parameters (?x ?y)
    :precondition (and (on ?x ?y) (clear ?x) (and (handempty) (not (or (holding ?x) (ontable ?x)))))
    :effect (and (holding ?x) (clear ?y) (not (clear ?x)) (not (handempty)) (not (on ?x ?y))))
  (:action finish
    :precondition (handempty)
    :effect (done)))
