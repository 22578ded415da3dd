(set-option :regular-output-channel "out")
