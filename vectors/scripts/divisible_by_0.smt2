(set-logic LIA)
(declare-const n Int)
(assert ((_ divisible 0) n))
