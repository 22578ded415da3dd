(set-logic LRA)
(declare-const |and| Bool)
