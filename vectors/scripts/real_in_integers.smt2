(set-logic LIA)
(declare-const x Real)
