(set-logic LRA)
(assert false)
(check-sat)
