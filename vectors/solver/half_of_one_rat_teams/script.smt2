(set-logic LRA)
(assert (exists ((x Real)) (= (* 2 x) 1)))
(check-sat)
