(set-logic LIA)
(assert (exists ((x Int)) (= (* 2 x) 1)))
(check-sat)
