simsat-strategy 1
goals 1
goal 0 sat
turns oo
o 1
m 1 0
o 1
m 2 6 1 0
proof 21
path 0
def 0 0
def 0 1
def 1 0
def 1 1
cases 0 2
cases 5 4
sum 1 6 1 1 1
false 7
sum 1 6 1 2 4
false 7
sum 2 6 1 3 1
sum 1 7 1 1 6
false 8
sum 2 6 1 4 1
sum 1 7 1 2 1
false 8
part 5 0
sum 2 6 1 3 1
sum 1 7 1 2 1
false 8
end
