(set-logic LIA)
(pop 1)
