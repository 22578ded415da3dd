(set-logic LIA)
(assert #)
