(set-logic LIA)
(assert (_ divisible 2))
