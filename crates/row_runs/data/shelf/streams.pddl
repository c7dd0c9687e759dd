(define (stream shelf)
  (:stream spot :inputs (?i - item) :outputs (?s - spot) :certified (fits ?i ?s))
  (:stream apart :inputs (?i - item ?s ?t - spot)
    :domain (and (fits ?i ?s) (lamp ?t)) :certified (apart ?s ?t)))
