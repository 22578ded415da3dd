(set-logic LRA)
(declare-const |let| Real)
(assert (< |let| 1))
(check-sat)
