(set-logic LRA)
(declare-const push Real)
