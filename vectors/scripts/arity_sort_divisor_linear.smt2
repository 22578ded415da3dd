(set-logic LRA)
(declare-const x Real)
(declare-const y Real)
(assert (< (/ true 0 y) 1))
