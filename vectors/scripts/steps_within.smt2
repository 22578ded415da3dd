(set-logic LIA)
(assert (= 0 (+ 1 (- 1) 4503599627370495)))
(check-sat)
