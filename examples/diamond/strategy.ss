simsat-strategy 2
goals 1
goal 0 unsat
turns tttttttttt
t
t
t
t
t
t
t
t
t
t
proof 45
path 0
learn > 0 -1 0 1 3
part 0 0
cases 2 2
part 3 0
part 3 1
sum 1 4 1 5 1
sum 1 6 1 1 1
false 7
part 3 0
part 3 1
sum 1 4 1 5 1
sum 1 6 1 1 1
false 7
learn > 0 -1 3 1 6
part 0 1
cases 3 2
part 4 0
part 4 1
sum 1 5 1 6 1
sum 1 7 1 2 1
false 8
part 4 0
part 4 1
sum 1 5 1 6 1
sum 1 7 1 2 1
false 8
learn > 0 -1 6 1 9
part 0 2
cases 4 2
part 5 0
part 5 1
sum 1 6 1 7 1
sum 1 8 1 3 1
false 9
part 5 0
part 5 1
sum 1 6 1 7 1
sum 1 8 1 3 1
false 9
part 0 3
sum 1 1 1 2 1
sum 1 5 1 3 1
sum 1 6 1 4 1
false 7
end
