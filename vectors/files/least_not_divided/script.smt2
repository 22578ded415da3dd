(set-logic LIA)
(declare-const x0 Int)
(assert (and (not ((_ divisible 2) x0)) (not ((_ divisible 2) (+ x0 1)))))
(check-sat)
