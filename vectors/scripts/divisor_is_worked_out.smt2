(set-logic LIA)
(declare-const n Int)
(assert (< (div n (- 2 2)) 1))
