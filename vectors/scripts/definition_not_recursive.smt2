(set-logic LRA)
(define-fun f ((a Real)) Real (f a))
