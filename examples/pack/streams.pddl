(define (stream arms)
  (:stream grip
    :inputs (?a - arm ?i - item)
    :domain (reaches ?a ?i)
    :outputs (?g - grip)
    :certified (grip ?a ?i ?g)))
