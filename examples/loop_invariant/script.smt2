(set-logic LIA)
; while (i < n) { i = i + 1; s = s + 2; }   keeps   0 <= i <= n and s = 2 i
(define-fun inv ((i Int) (n Int) (s Int)) Bool (and (<= 0 i) (<= i n) (= s (* 2 i))))
(assert (forall ((i Int) (n Int) (s Int))
  (=> (and (inv i n s) (< i n)) (inv (+ i 1) n (+ s 2)))))
(check-sat)
