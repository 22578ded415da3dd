(set-logic LRA)
(declare-const + Real)
