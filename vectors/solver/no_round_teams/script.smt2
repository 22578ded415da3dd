(set-logic LRA)
(assert (forall ((x Real)) (exists ((y Real)) (< x y))))
(check-sat)
