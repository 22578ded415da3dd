(set-logic LRA)
(assert (exists ((x Real)) (forall ((y Real)) (< x y))))
(check-sat)
