(set-logic LIA)
(declare-const x Int)
(assert (and ((_ divisible 2) x) ((_ divisible 2) (+ x 1))))
(check-sat)
