(set-info :a bé)
