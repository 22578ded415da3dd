(set-logic LIA)
(declare-const n Int)
(assert (forall ((n Bool)) (let ((n (not n))) (exists ((n Int)) (< n 1)))))
(check-sat)
