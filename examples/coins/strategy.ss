simsat-strategy 1
goals 1
goal 0 sat
turns too
t
o 5
m 1 0
o 2
m 1 0
m 5 4 1 0 -3 1
m 1 1
o 1
m 5 4 1 0 -3 1
m 1 3
o 1
m 5 4 1 0 -3 1
m 1 2
o 1
m 5 4 1 0 -3 1
m 1 4
o 1
m 5 4 1 0 -3 1
proof 102
path 0
path 1
path 2
path 3
path 4
path 5
def 1 0
def 1 1
def 3 0
def 3 1
def 4 0
def 4 1
def 5 0
def 5 1
def 6 0
def 6 1
def 7 0
def 7 1
def 8 0
def 8 1
def 9 0
def 9 1
def 10 0
def 10 1
def 11 0
def 11 1
part 0 0
part 1 1
part 2 1
part 3 1
part 4 1
part 5 1
cases 28 3
sum 1 32 1 10 1
false 33
sum 1 26 1 12 1
sum 1 33 5 32 3
sum 1 34 1 11 1
false 35
cases 32 2
cases 29 3
sum 1 34 1 14 1
false 35
sum 1 26 1 16 1
sum 1 35 5 34 3
sum 1 36 1 15 1
false 37
cases 34 2
cases 30 3
sum 1 36 1 18 1
false 37
sum 1 26 1 20 1
sum 1 37 5 36 3
sum 1 38 1 19 1
false 39
cases 36 2
cases 31 3
sum 1 38 1 22 1
false 39
sum 1 26 1 24 1
sum 1 39 5 38 3
sum 1 40 1 23 1
false 41
cases 38 2
cases 27 3
sum 1 40 1 6 1
false 41
sum 1 26 1 8 1
sum 1 41 5 40 3
sum 1 42 1 7 1
false 43
cases 40 2
sum 1 13 3 10 1
sum 1 35 3 15 1
sum 1 42 1 43 5
sum 1 17 3 14 1
sum 1 41 3 7 1
sum 1 45 1 46 5
sum 1 44 1 47 1
sum 1 25 3 22 1
sum 1 33 3 11 1
sum 1 49 1 50 5
sum 1 48 1 51 1
sum 1 21 3 18 1
sum 1 39 3 23 1
sum 1 53 1 54 5
sum 1 52 1 55 1
sum 1 9 3 6 1
sum 1 37 3 19 1
sum 1 57 1 58 5
sum 1 56 1 59 1
false 60
sum 1 41 1 8 1
false 42
sum 1 39 1 24 1
false 40
sum 1 37 1 20 1
false 38
sum 1 35 1 16 1
false 36
sum 1 33 1 12 1
false 34
end
