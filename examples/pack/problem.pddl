(define (problem box)
  (:domain arms)
  (:objects left right - arm cup pan jar - item)
  (:init
    (free left) (free right)
    (loose cup) (loose pan) (loose jar)
    (reaches left cup) (reaches left jar) (reaches right pan))
  (:goal (closed)))
