(set-logic LIA)
(declare-const n Int)
(assert (< (* (! 2 :a b) n) 1))
(check-sat)
