(define (problem two) (:domain fetch) (:objects cup pan)
  (:init (item cup) (item pan) (first cup) (second pan) (free)) (:goal (held)))
