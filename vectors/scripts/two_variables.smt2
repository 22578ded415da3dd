(set-logic LRA)
(declare-const x Real)
(declare-const y Real)
(assert (< (* x y) 1))
