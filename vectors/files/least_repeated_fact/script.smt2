(set-logic LIA)
(declare-const x0 Int)
(assert (and (<= 0 (+ x0 (- 1))) (<= 0 (* (- 1) x0))))
(check-sat)
