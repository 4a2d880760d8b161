(define (problem depotprob-1.pddl) (:domain Depot)
(:objects
  depot0 - Depot
  distributor0 - Distributor
  truck0 - Truck
  pallet0 pallet1 - Pallet
  crate0 crate1 - Crate
  hoist0 hoist1 - Hoist)
(:init
  (at pallet0 depot0) (clear crate1)
  (at pallet1 distributor0) (clear pallet1)
  (at truck0 distributor0)
  (= (current_load truck0) 0) (= (load_limit truck0) 180.0)
  (at hoist0 depot0) (available hoist0)
  (at hoist1 distributor0) (available hoist1)
  (at crate0 depot0) (on crate0 pallet0) (= (weight crate0) 100.0)
  (at crate1 depot0) (on crate1 crate0) (= (weight crate1) 75.0)
  (= (distance depot0 depot0) 0) (= (distance distributor0 distributor0) 0)
  (= (distance depot0 distributor0) 7) (= (distance distributor0 depot0) 7)
  (= (fuel-cost) 0))
(:goal (and (on crate0 pallet1) (on crate1 crate0)))
(:metric minimize (fuel-cost)))
