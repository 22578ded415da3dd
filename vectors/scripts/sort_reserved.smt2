(set-logic LRA)
(declare-const y let)
