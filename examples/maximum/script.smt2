(set-logic LRA)
(assert (forall ((x Real) (y Real)) (exists ((m Real))
  (and (>= m x) (>= m y) (or (= m x) (= m y))))))
(check-sat)
