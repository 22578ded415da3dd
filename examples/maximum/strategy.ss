simsat-strategy 1
goals 1
goal 0 sat
turns tto
t
t
o 2
m 1 0 1 0
m 1 0 1 1
proof 28
path 0
path 1
def 2 0
def 2 1
def 3 0
def 3 1
cases 0 3
sum 1 6 1 2 1
false 7
cases 1 3
sum 1 6 1 2 1
sum 1 8 1 4 1
sum 1 9 1 7 1
false 10
sum 1 7 1 4 1
false 8
part 7 1
cases 8 2
sum 1 9 1 4 1
false 10
sum 1 9 1 5 1
false 10
part 6 0
cases 7 2
sum 1 8 1 2 1
false 9
sum 1 8 1 3 1
false 9
end
