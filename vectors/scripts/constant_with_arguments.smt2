(set-logic LIA)
(declare-const n Int)
(assert (< (n 1) 1))
