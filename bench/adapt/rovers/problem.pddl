(define (problem roverprob1234) (:domain Rover)
(:objects general - Lander
  rover0 - Rover rover0store - Store
  waypoint0 waypoint1 waypoint2 - Waypoint)
(:goal (and (communicated_rock_data waypoint0) (communicated_rock_data waypoint2)))
(:metric minimize (recharges))
(:init
  (visible waypoint0 waypoint1) (visible waypoint1 waypoint0)
  (visible waypoint1 waypoint2) (visible waypoint2 waypoint1)
  (can_traverse rover0 waypoint0 waypoint1) (can_traverse rover0 waypoint1 waypoint0)
  (can_traverse rover0 waypoint1 waypoint2) (can_traverse rover0 waypoint2 waypoint1)
  (= (recharges) 0)
  (at_rock_sample waypoint0) (at_rock_sample waypoint2)
  (at_lander general waypoint1) (channel_free general) (in_sun waypoint1)
  (= (energy rover0) 11)
  (at rover0 waypoint1) (available rover0) (store_of rover0store rover0) (empty rover0store)))
