(set-info :a |b)
