(set-logic LRA)
(declare-const x0 Real)
(assert (and (<= 0 (+ x0 (- 1))) (<= 0 (* (- 1) x0))))
(check-sat)
