(define (stream kitchen)
  ; where food may stand in a region
  (:stream place :inputs (?f - food ?r - region) :outputs (?p - pose) :certified (and (pose ?f ?p) (in ?f ?p ?r)))
  ; from which side the hand takes it
  (:stream grip :inputs (?f - food) :outputs (?g - grasp) :certified (grasp ?f ?g))
  ; the angles of the arm with which the hand is there
  (:stream reach :inputs (?f - food ?p - pose ?g - grasp) :domain (and (pose ?f ?p) (grasp ?f ?g)) :outputs (?q - conf)
    :certified (reach ?f ?p ?g ?q))
  ; two things don't touch each other
  (:stream apart :inputs (?f - food ?p - pose ?o - food ?r - pose)
    :domain (and (pose ?f ?p) (pose ?o ?r)) :certified (apart ?f ?p ?o ?r)))
