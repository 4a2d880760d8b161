(define (problem strips-sat-x-1)
(:domain satellite)
(:objects
  satellite0 - satellite
  instrument0 - instrument
  image1 spectrograph2 - mode
  Star0 GroundStation1 Phenomenon2 - direction)
(:init
  (supports instrument0 spectrograph2) (supports instrument0 image1)
  (calibration_target instrument0 Star0)
  (on_board instrument0 satellite0) (power_avail satellite0)
  (pointing satellite0 GroundStation1)
  (= (data_capacity satellite0) 1000)
  (= (fuel satellite0) 112.0)
  (= (data Phenomenon2 image1) 22) (= (data Phenomenon2 spectrograph2) 125)
  (= (data Star0 image1) 203) (= (data Star0 spectrograph2) 196)
  (= (data GroundStation1 image1) 0) (= (data GroundStation1 spectrograph2) 0)
  (= (slew_time Star0 GroundStation1) 18.17) (= (slew_time GroundStation1 Star0) 18.17)
  (= (slew_time Phenomenon2 GroundStation1) 38.64)
  (= (slew_time GroundStation1 Phenomenon2) 38.64)
  (= (slew_time Phenomenon2 Star0) 70.5) (= (slew_time Star0 Phenomenon2) 70.5)
  (= (data-stored) 0)
  (= (fuel-used) 0))
(:goal (and (have_image Phenomenon2 image1) (have_image Phenomenon2 spectrograph2)
  (have_image Star0 image1)))
(:metric minimize (fuel-used)))
