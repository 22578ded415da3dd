(set-logic LIA)
(assert (= "a" "a"))
