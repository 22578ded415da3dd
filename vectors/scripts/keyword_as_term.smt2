(set-logic LIA)
(assert :a)
