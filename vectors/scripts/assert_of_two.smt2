(set-logic LIA)
(assert true false)
