simsat-strategy 1
goals 0
end
