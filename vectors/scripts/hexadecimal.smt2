(set-logic LIA)
(assert (< #x1 2))
