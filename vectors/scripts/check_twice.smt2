(set-logic LIA)
(check-sat)
(check-sat)
