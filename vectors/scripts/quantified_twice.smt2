(set-logic LRA)
(assert (forall ((a Real) (a Bool)) a))
