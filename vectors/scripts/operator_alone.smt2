(set-logic LIA)
(assert and)
