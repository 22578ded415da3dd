(set-logic LIA)
(define-fun f ((a Int)) Int a)
(assert (= 1 (f true)))
