(set-logic LRA)
(assert (= 1. 1))
