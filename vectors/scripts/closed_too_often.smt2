(set-logic LRA)
)
