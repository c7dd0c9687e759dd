(define (stream line)
  (:stream sample-pose
    :inputs (?b) :domain (Block ?b)
    :outputs (?p) :certified (and (Spot ?p) (Pose ?b ?p)))
  (:predicate (Collision ?b ?p ?o ?q) (and (Pose ?b ?p) (Pose ?o ?q)))
  (:function (Distance ?p) (Spot ?p)))
