simsat-strategy 1
goals 1
goal 0 unsat
turns oo
o 1
m 1 0
o 1
m 1 0
proof 16
path 0
def 0 0
def 0 1
def 1 0
def 1 1
cases 0 2
cases 5 2
sum 1 6 1 3 1
sum 1 7 1 2 1
false 8
sum 1 6 1 3 1
sum 1 7 1 2 1
false 8
sum 1 5 1 4 1
sum 1 6 1 1 1
false 7
end
