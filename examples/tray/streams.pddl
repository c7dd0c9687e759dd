(define (stream tray)
  ; where a cup may stand on the tray
  (:stream place :inputs (?c - cup) :outputs (?p - pose) :certified (pose ?c ?p))
  ; it doesn't touch the bottle there
  (:stream clear :inputs (?c - cup ?p - pose) :domain (pose ?c ?p) :certified (clear ?c ?p))
  ; two cups don't touch each other
  (:stream apart :inputs (?c - cup ?p - pose ?o - cup ?r - pose)
    :domain (and (pair ?c ?o) (clear ?c ?p) (clear ?o ?r)) :certified (apart ?c ?p ?o ?r))
  ; the angles of shoulder and elbow with which the hand is there
  (:stream reach :inputs (?c - cup ?p - pose) :domain (clear ?c ?p) :outputs (?q - conf)
    :certified (reach ?p ?q))
  ; how far both joints turn to get there
  (:cost-stream turn :inputs (?p - pose ?q - conf) :domain (reach ?p ?q) :value (turn ?q)))
