(set-logic LRA)
(assert (exists ((x Real)) (and (or (< x 1) (< x 2)) (and (< x 0) (< 0 x)))))
(check-sat)
