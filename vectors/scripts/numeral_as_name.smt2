(set-logic LIA)
(declare-const 5 Int)
