simsat-strategy 2
goals 1
goal 0 sat
turns to
t
o 1
m 1 1 1 0
proof 9
path 0
def 1 0
learn >= -1 > 0 1 0 -1 1
sum 1 0 1 1 1
false 4
cases 2 2
false 3
sum 1 1 1 3 1
false 4
end
