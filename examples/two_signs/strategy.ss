simsat-strategy 1
goals 1
goal 0 sat
turns to
t
o 2
m 1 0 1 0
m 1 0 -1 0
proof 17
path 0
path 1
def 1 0
def 2 0
split >= 0 1 0
cases 0 2
sum 1 5 1 2 1
false 6
sum 1 5 1 2 2
sum 1 6 1 4 1
false 7
cases 1 2
sum 1 5 1 3 2
sum 1 6 1 4 1
false 7
sum 1 5 1 3 1
false 6
end
