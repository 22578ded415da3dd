(set-logic LRA)
(declare-const |x| Real)
(assert (< x |x|))
(check-sat)
