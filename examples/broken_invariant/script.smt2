(set-logic LIA)
; while (i <= n) { i = i + 1; }   does not keep   i <= n
(assert (forall ((i Int) (n Int)) (=> (and (<= i n) (<= i n)) (<= (+ i 1) n))))
(check-sat)
