(set-logic LIA)
(assert (= 1 (ite 1 2 3)))
