(set-logic LIA)
(check-sat)
(exit)
)