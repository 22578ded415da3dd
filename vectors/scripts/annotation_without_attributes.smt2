(set-logic LIA)
(assert (! true))
