(set-logic LIA)
(declare-const n Int)
(define-fun g ((a Int)) Int (- a a))
(assert (< (div n (g 3)) 1))
