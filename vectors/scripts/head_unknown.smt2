(set-logic LRA)
(assert (foo zzz))
