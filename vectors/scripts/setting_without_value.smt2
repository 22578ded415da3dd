(set-option :random-seed)
