(define (domain light) (:predicates (on))
  (:action press :parameters () :precondition (not (on)) :effect (on)))
