; A hand takes an item out of a bin, at an angle at which its fingers touch nothing else.
(define (domain bin)
  (:types item grasp)
  (:predicates (wanted ?i - item) (proposed ?i - item ?g - grasp) (free ?i - item ?g - grasp) (empty) (held ?i - item))
  (:action pick :parameters (?i - item ?g - grasp)
    :precondition (and (empty) (free ?i ?g))
    :effect (and (held ?i) (not (empty)))))
