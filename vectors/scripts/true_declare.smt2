(set-logic LRA)
(declare-const |true| Bool)
