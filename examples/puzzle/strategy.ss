simsat-strategy 1
goals 1
goal 0 sat
turns oo
o 1
m 1 23
o 1
m 1 35 -1 0
proof 24
path 0
def 0 0
def 0 1
def 1 0
def 1 1
cases 0 3
cases 5 2
sum 1 6 1 1 1
false 7
sum 1 6 1 3 1
sum 1 7 1 2 1
false 8
cases 5 2
sum 1 6 1 3 1
false 7
sum 1 6 1 4 1
false 7
cases 5 2
sum 1 6 2 3 1
sum 1 7 1 2 1
false 8
sum 1 6 2 4 1
sum 1 7 1 1 1
false 8
end
