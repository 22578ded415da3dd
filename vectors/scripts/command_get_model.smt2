(set-logic LIA)
(check-sat)
(get-model)
