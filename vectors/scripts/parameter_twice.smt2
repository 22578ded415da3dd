(set-logic LRA)
(define-fun f ((a Real) (a Real)) Real a)
