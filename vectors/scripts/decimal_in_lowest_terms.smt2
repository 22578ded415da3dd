(set-logic LRA)
(declare-const x Real)
(assert (< x 0.5))
(check-sat)
