(set-logic LRA)
(declare-const x Real)
(assert (< x 4503599627370496))
(check-sat)
