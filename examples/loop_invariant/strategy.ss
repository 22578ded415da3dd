simsat-strategy 1
goals 1
goal 0 sat
turns ttt
t
t
t
proof 19
path 0
part 0 0
part 0 1
part 1 0
part 1 1
part 3 0
part 3 2
part 6 0
part 6 1
cases 2 3
sum 1 5 1 9 1
false 10
sum 1 4 1 9 1
false 10
cases 9 2
sum 1 8 1 10 1
false 11
sum 1 7 1 10 1
false 11
end
