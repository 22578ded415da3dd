(set-logic LRA)
(declare-const BINARY Real)
