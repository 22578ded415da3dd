(set-logic LRA)
(check-sat)
