(set-logic LRA)
(declare-const div Real)
(assert (< div 1))
(check-sat)
