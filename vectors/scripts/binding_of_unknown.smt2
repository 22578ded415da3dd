(set-logic LRA)
(assert (let ((a zzz)) true))
