(set-logic LIA)
(assert (= 1 true))
