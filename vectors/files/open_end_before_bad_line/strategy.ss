simsat-strategy 1
goals 1
goal 0 sat
turns to
t
o 1
m 1 1 1 0
proof 3
path 0
def 1 0
sum 1 0 1 1 2
end
