(set-logic LIA)
(assert (= 1 (+ 1 true)))
