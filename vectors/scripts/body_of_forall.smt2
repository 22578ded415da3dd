(set-logic LIA)
(assert (forall ((a Int)) a))
