(set-logic LIA)
(assert (forall ((a Int)) true zzz))
