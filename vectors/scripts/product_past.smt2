(set-logic LIA)
(assert (= 0 (* 67108864 67108865)))
(check-sat)
