(set-logic LIA)
(assert)
