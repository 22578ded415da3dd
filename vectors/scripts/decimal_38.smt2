(set-logic LRA)
(declare-const x Real)
(assert (< x 0.0000000000000000000000000000000000001))
