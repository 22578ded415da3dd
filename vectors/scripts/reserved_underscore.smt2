(set-logic LRA)
(declare-const _ Real)
