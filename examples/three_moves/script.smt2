(set-logic LRA)
; the robot steps by at most 2, the wind by at most 1; the goal is 0, the start is between -2 and 2
(assert (forall ((s Real)) (=> (and (<= (- 2) s) (<= s 2))
  (exists ((a Real)) (and (<= (- 2) a) (<= a 2)
    (forall ((w Real)) (=> (and (<= (- 1) w) (<= w 1))
      (and (<= (- 1) (+ s a w)) (<= (+ s a w) 1)))))))))
(check-sat)
