(define (problem one) (:domain fetch) (:objects cup)
  (:init (item cup) (free)) (:goal (done cup)))
