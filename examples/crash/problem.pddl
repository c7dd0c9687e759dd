(define (problem mug) (:domain crash)
  (:objects mug - cup)
  (:init (held mug) (wanted mug))
  (:goal (stands mug)))
