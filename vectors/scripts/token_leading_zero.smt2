(set-logic LIA)
(assert (= 01 1))
