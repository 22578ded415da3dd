(set-logic LIA)
(assert (1 2))
