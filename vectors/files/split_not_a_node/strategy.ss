simsat-strategy 1
goals 1
goal 0 sat
turns to
t
o 1
m 1 1 1 0
proof 3
split >= 0 1 2
false 0
false 0
end
