(define (problem log-2-1)
  (:domain logistics-typed)
  (:objects
    package1 - package
    plane1 - airplane
    truck1 truck2 - truck
    bos pgh - city
    bos-po pgh-po - location
    base pgh-airport - airport)
  (:goal (and (at package1 pgh-po)))
  (:init (in-city bos-po bos) (in-city base bos) (in-city pgh-po pgh) (in-city pgh-airport pgh)
    (at plane1 pgh-airport) (at truck1 base) (at truck2 pgh-po) (at package1 bos-po)))
