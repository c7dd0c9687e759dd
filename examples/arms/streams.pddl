(define (stream arms)
  ; where a block may stand in a zone
  (:stream place :inputs (?b - block ?z - zone) :outputs (?p - pose) :certified (and (pose ?b ?p) (in ?b ?p ?z)))
  ; the angles of an arm with which its hand is over the block; it ends where the arm doesn't reach
  (:stream reach :inputs (?a - arm ?b - block ?p - pose) :domain (pose ?b ?p) :outputs (?q - conf)
    :certified (reach ?a ?b ?p ?q))
  ; two blocks don't touch each other
  (:stream apart :inputs (?b - block ?p - pose ?o - block ?r - pose)
    :domain (and (pose ?b ?p) (pose ?o ?r)) :certified (apart ?b ?p ?o ?r)))
