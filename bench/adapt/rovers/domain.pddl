(define (domain Rover)
(:requirements :typing :fluents :disjunctive-preconditions)
(:types rover waypoint store camera mode lander objective)
(:predicates (at ?x - rover ?y - waypoint)
  (at_lander ?x - lander ?y - waypoint)
  (can_traverse ?r - rover ?x - waypoint ?y - waypoint)
  (empty ?s - store) (full ?s - store)
  (have_rock_analysis ?r - rover ?w - waypoint)
  (at_rock_sample ?w - waypoint)
  (communicated_rock_data ?w - waypoint)
  (visible ?w - waypoint ?p - waypoint)
  (available ?r - rover) (store_of ?s - store ?r - rover)
  (in_sun ?w - waypoint) (channel_free ?l - lander))
(:functions (energy ?r - rover) (recharges))

(:action navigate
 :effect (and (decrease (energy ?x) 8.0) (not (at ?x ?y)) (at ?x ?z))
 :parameters (?x - rover ?y - waypoint ?z - waypoint)
 :precondition (and (can_traverse ?x ?y ?z) (available ?x) (at ?x ?y) (visible ?y ?z)
   (not (< (energy ?x) 8.0))))

(:action recharge
 :parameters (?x - rover ?w - waypoint)
 :precondition (and (at ?x ?w) (or (in_sun ?w)) (<= (energy ?x) 80))
 :effect (and (increase (energy ?x) 20) (increase (recharges) 1)))

(:action sample_rock
 :parameters (?x - rover ?s - store ?p - waypoint)
 :precondition (and (at ?x ?p) (>= (energy ?x) 5) (at_rock_sample ?p) (store_of ?s ?x) (empty ?s))
 :effect (and (not (empty ?s)) (full ?s) (decrease (energy ?x) 5.) (have_rock_analysis ?x ?p)
   (not (at_rock_sample ?p))))

(:action drop
 :parameters (?x - rover ?y - store)
 :precondition (and (store_of ?y ?x) (full ?y))
 :effect (and (not (full ?y)) (empty ?y)))

(:action communicate_rock_data
 :parameters (?r - rover ?l - lander ?p - waypoint ?x - waypoint ?y - waypoint)
 :precondition (and (at ?r ?x) (at_lander ?l ?y) (have_rock_analysis ?r ?p) (visible ?x ?y)
   (available ?r) (channel_free ?l) (>= (energy ?r) 4))
 :effect (and (not (available ?r)) (not (channel_free ?l)) (channel_free ?l)
   (communicated_rock_data ?p) (available ?r) (decrease (energy ?r) 4))))
