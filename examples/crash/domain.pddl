; A hand puts a cup down on a spot where it stays.
(define (domain crash)
  (:types cup spot)
  (:predicates (wanted ?c - cup) (held ?c - cup) (seen ?c - cup ?s - spot) (stays ?c - cup ?s - spot) (stands ?c - cup))
  (:action put :parameters (?c - cup ?s - spot)
    :precondition (and (held ?c) (stays ?c ?s))
    :effect (and (stands ?c) (not (held ?c)))))
