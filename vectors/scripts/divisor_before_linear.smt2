(set-logic LRA)
(declare-const x Real)
(declare-const y Real)
(assert (< (/ x 0 y) 1))
