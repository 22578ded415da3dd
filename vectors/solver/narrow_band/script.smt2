(set-logic LIA)
(assert (exists ((x Int) (y Int)) (and (<= 1 (- (* 3 x) (* 3 y))) (<= (- (* 3 x) (* 3 y)) 2))))
(check-sat)
