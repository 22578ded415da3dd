(set-option :global-declarations true)
