(set-logic LIA)
(assert (forall ((x Int)) (exists ((y Int)) (or (= (* 2 y) x) (= (* 2 y) (+ x 1))))))
(check-sat)
