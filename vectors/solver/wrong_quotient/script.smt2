(set-logic LIA)
(assert (and (= (div (- 7) 2) (- 3)) (= (mod (- 7) 2) 1) (= (div 7 (- 2)) (- 3)) (= (mod 7 (- 2)) 1)))
(check-sat)
