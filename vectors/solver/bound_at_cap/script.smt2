(set-logic LRA)
(declare-const x Real)
(assert (<= 4503599627370496 x))
(check-sat)
