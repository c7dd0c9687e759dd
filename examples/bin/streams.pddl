; Grasps come in batches; each is tested by itself.
(define (stream bin)
  (:stream propose :inputs (?i - item) :domain (wanted ?i)
    :outputs (?g - grasp) :certified (proposed ?i ?g))
  (:stream free :inputs (?i - item ?g - grasp) :domain (proposed ?i ?g) :certified (free ?i ?g)))
