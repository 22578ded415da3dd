(set-logic LRA)
(declare-const x Real)
(assert (< x 0.00000000000000000000000000000000000001))
