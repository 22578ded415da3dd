(set-info : a)
