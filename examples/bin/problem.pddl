(define (problem can) (:domain bin)
  (:objects can jar tin cap - item)
  (:init (empty) (wanted can))
  (:goal (held can)))
