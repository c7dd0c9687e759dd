(define (problem evening) (:domain light) (:init) (:goal (on)))
