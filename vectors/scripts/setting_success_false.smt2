(set-option :print-success false)
(set-option :print-success |false|)
