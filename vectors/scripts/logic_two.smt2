(set-logic LRA LIA)
