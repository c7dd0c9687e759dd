; Two arms pack items and then close the box. An arm holds one item at a time.
(define (domain arms)
  (:requirements :strips :typing :negative-preconditions :existential-preconditions)
  (:types arm item grip)
  (:predicates
    (reaches ?a - arm ?i - item)
    (grip ?a - arm ?i - item ?g - grip)
    (free ?a - arm)
    (holds ?a - arm ?i - item ?g - grip)
    (loose ?i - item)
    (packed ?i - item)
    (closed))
  (:action take
    :parameters (?a - arm ?i - item ?g - grip)
    :precondition (and (free ?a) (loose ?i) (grip ?a ?i ?g))
    :effect (and (holds ?a ?i ?g) (not (free ?a)) (not (loose ?i))))
  (:action pack
    :parameters (?a - arm ?i - item ?g - grip)
    :precondition (holds ?a ?i ?g)
    :effect (and (packed ?i) (free ?a) (not (holds ?a ?i ?g))))
  (:action close
    :parameters ()
    :precondition (not (exists (?i - item) (not (packed ?i))))
    :effect (closed)))
