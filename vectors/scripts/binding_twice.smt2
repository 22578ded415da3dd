(set-logic LRA)
(assert (let ((a 1) (a 2)) (< a 1)))
