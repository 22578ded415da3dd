(set-logic LRA)
(declare-const let Real)
