(set-logic LIA)
(declare-const / Int)
(assert (< / 1))
(check-sat)
