(set-logic LIA)
(declare-const x0 Int)
(assert (and ((_ divisible 3) x0) (not ((_ divisible 3) x0))))
(check-sat)
