(declare-fun x () Real)
