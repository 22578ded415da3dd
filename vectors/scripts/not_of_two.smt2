(set-logic LIA)
(assert (not true true))
