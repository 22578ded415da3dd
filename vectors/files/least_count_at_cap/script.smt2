(set-logic LIA)
(declare-const x0 Int)
(assert (and ((_ divisible 2) x0) ((_ divisible 2) (+ x0 1))))
(check-sat)
