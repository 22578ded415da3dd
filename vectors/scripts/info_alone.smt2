(set-info :a)
