(set-logic LIA)
(assert ())
