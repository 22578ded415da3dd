(set-logic LIA)
(declare-fun f (Int) Int)
