(set-logic LIA)
(declare-const n Int)
(assert (< (n) 1))
