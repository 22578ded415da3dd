(set-logic 5)
