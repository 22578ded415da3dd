(define-fun x () Real 1)
