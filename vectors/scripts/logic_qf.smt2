(set-logic QF_LIA)
(assert (forall ((n Int)) (< n 1)))
(check-sat)
