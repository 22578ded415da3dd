(set-option :random-seed 7)
