(set-logic LIA)
(define-fun f ((a Int)) Bool a)
