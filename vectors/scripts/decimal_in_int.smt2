(set-logic LIA)
(assert (< 1.0 2))
