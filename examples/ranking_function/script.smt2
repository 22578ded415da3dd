(set-logic LIA)
; while (x > y) { if (..) x = x - 1; else y = y + 1; }
(assert (forall ((x Int) (y Int) (u Int) (v Int))
  (=> (and (> x y) (or (and (= u (- x 1)) (= v y)) (and (= u x) (= v (+ y 1)))))
      (and (> (- x y) 0) (<= (- u v) (- (- x y) 1))))))
(check-sat)
