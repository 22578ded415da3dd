(set-logic LIA)
(assert (forall ((x Int)) (exists ((y Int)) (forall ((z Int)) (or (<= z y) (> z x))))))
(check-sat)
