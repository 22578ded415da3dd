(set-logic LIA)
(assert (forall () true))
