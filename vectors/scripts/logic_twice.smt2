(set-logic LRA)
(set-logic LRA)
