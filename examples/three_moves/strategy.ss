simsat-strategy 1
goals 1
goal 0 sat
turns tot
t
o 2
m 1 0
t
m 1 0 -1 0
t
proof 26
path 0
path 1
def 3 0
def 3 1
part 0 0
part 1 1
part 4 0
part 4 1
cases 5 3
sum 1 7 1 2 1
sum 1 9 1 8 1
false 10
sum 1 6 1 3 1
sum 1 9 1 8 1
false 10
part 8 0
part 8 1
part 9 0
part 9 1
cases 10 2
sum 1 11 1 13 1
sum 1 14 1 2 1
false 15
sum 1 12 1 13 1
sum 1 14 1 3 1
false 15
end
