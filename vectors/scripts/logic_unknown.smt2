(set-logic LIRA)
