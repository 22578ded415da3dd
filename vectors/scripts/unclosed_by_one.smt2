(set-logic LRA)
(assert (and true)