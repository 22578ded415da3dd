(set-logic LIA)
(assert (< #b1 2))
