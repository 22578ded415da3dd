(set-logic LIA)
(declare-const n Int)
(define-fun g ((a Int)) Int (* a n))
