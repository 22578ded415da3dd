(set-logic LIA)
(declare-const x Int)
(assert (<= x 4503599627370496))
(check-sat)
