(set-logic LIA)
(assert (let ((a)) true))
