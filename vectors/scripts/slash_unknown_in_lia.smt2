(set-logic LIA)
(declare-const n Int)
(assert (< (/ n 2) 1))
