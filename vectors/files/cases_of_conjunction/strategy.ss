simsat-strategy 1
goals 1
goal 0 sat
turns to
t
o 1
m 2 1 1 0
proof 4
path 0
cases 0 2
false 1
false 1
end
