(set-logic LIA)
(check-sat 1)
