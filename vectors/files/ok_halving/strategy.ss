simsat-strategy 1
goals 1
goal 0 sat
turns to
t
o 1
m 2 1 1 0
proof 13
path 0
part 0 0
part 0 1
def 1 0
def 1 1
cases 1 2
sum 1 3 1 5 1
false 6
cases 2 2
sum 1 5 1 6 1
false 7
sum 1 4 1 6 1
false 7
end
