; A camera sees spots; a simulator tells on which of them a cup stays.
(define (stream crash)
  (:stream see :inputs (?c - cup) :domain (wanted ?c)
    :outputs (?s - spot) :certified (seen ?c ?s))
  (:stream simulate :inputs (?c - cup ?s - spot) :domain (seen ?c ?s) :certified (stays ?c ?s)))
