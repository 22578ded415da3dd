(set-logic LIA)
(declare-const x0 Int)
(assert (and (<= 0 (+ x0 (- 1))) ((_ divisible 2) x0) (<= 0 (+ (* (- 1) x0) 1))))
(check-sat)
