(set-logic LRA)
(declare-const x Real)
(define-fun x () Real 1)
