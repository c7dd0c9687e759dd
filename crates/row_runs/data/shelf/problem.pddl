(define (problem one-cup) (:domain shelf) (:objects cup pan - item corner - spot)
  (:init (hand cup) (lamp corner)) (:goal (stored cup)))
