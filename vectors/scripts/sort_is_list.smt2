(set-logic LRA)
(declare-const y (Real))
