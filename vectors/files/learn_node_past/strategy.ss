simsat-strategy 2
goals 1
goal 0 sat
turns to
t
o 1
m 1 1 1 0
proof 6
path 0
def 1 0
learn >= -1 1 2
sum 1 0 1 1 1
false 3
false 2
end
