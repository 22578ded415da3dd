(set-logic LRA)
(declare-const x Real)
(assert (< x 1.50000000000000000000000000000000000000000))
(check-sat)
