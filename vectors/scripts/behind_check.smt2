(set-logic LIA)
(check-sat)
(assert true)
