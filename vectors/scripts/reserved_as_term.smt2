(set-logic LRA)
(assert let)
