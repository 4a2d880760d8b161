(define (domain logistics-typed)
  (:requirements :strips :typing :domain-axioms)
  (:types airport location - place
          truck airplane package city place)
  (:constants base - airport)
  (:predicates
    (in-city ?loc - place ?city - city)
    (at ?obj - (either truck airplane package) ?loc - (either airport location))
    (in ?pkg - package ?veh - (either truck airplane)))

  (:action LOAD
    :parameters (?pkg - package ?veh - (either truck airplane) ?loc - place)
    :precondition (and (at ?veh ?loc) (at ?pkg ?loc))
    :effect (and (not (at ?pkg ?loc)) (in ?pkg ?veh)))

  (:action UNLOAD
    :parameters (?pkg - package ?veh - (either airplane truck) ?loc - place)
    :precondition (and (at ?veh ?loc) (in ?pkg ?veh))
    :effect (and (not (in ?pkg ?veh)) (at ?pkg ?loc)))

  (:action DRIVE
    :parameters (?truck - truck ?from - place ?to - place ?city - city)
    :precondition (and (at ?truck ?from) (in-city ?from ?city) (in-city ?to ?city))
    :effect (and (not (at ?truck ?from)) (at ?truck ?to)))

  (:action FLY
    :parameters (?plane - airplane ?from - airport ?to - airport)
    :precondition (at ?plane ?from)
    :effect (and (not (at ?plane ?from)) (at ?plane ?to))))
