(set-logic LRA)
(declare-const x Real)
(assert (< (div x 2) 1))
