(set-logic LIA)
(assert (= 1))
