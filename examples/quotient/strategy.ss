simsat-strategy 1
goals 1
goal 0 sat
turns -
proof 14
path 0
cases 0 4
cases 1 2
cases 2 0
cases 2 0
cases 1 2
cases 2 0
cases 2 0
cases 1 2
cases 2 0
cases 2 0
cases 1 2
cases 2 0
cases 2 0
end
