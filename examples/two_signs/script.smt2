(set-logic LRA)
(assert (forall ((x Real)) (exists ((y Real)) (and (>= y x) (>= y (- x))))))
(check-sat)
