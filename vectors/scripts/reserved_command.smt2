(set-logic LRA)
(declare-const assert Real)
