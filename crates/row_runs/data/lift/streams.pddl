(define (stream fetch) (:stream grip :inputs (?x) :domain (item ?x)
  :outputs (?g) :certified (grip ?x ?g)))
