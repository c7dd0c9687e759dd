; Items are put on a shelf, at places that generators find.
(define (domain shelf)
  (:types item spot)
  (:predicates (hand ?i - item) (lamp ?t - spot) (fits ?i - item ?s - spot)
    (apart ?s ?t - spot) (on ?i - item ?s - spot) (stored ?i - item))
  (:derived (stored ?i - item) (exists (?s - spot) (on ?i ?s)))
  (:action put :parameters (?i - item ?s ?t - spot)
    :precondition (and (hand ?i) (fits ?i ?s) (lamp ?t) (apart ?s ?t))
    :effect (and (on ?i ?s) (not (hand ?i)))))
