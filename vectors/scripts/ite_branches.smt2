(set-logic LIA)
(assert (ite true 2 false))
