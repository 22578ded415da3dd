(set-logic LRA)
(assert (let ((a 1) (b a)) (< b 1)))
