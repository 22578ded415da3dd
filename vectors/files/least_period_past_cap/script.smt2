(set-logic LIA)
(declare-const x0 Int)
(assert (and ((_ divisible 4503599627370496) x0) ((_ divisible 4503599627370495) (+ x0 1))))
(check-sat)
