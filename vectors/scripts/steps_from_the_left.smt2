(set-logic LIA)
(assert (= 0 (+ 4503599627370496 1 (- 1))))
