(set-info :a (b c "d" #xF1 |e f|))
