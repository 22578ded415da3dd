(set-logic LIA)
(declare-const n Int)
(assert (and (let ((n true)) n) n))
