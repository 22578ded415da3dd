simsat-strategy 1
goals 1
goal 0 sat
turns tttt
t
t
t
t
proof 23
path 0
part 0 0
part 0 1
part 1 0
part 1 1
cases 2 2
sum 1 3 1 5 1
false 6
cases 4 2
part 6 0
part 6 1
part 7 0
part 8 1
sum 1 5 1 10 1
sum 1 11 1 9 1
false 12
part 6 0
part 6 1
part 7 0
part 8 1
sum 1 5 1 10 1
sum 1 11 1 9 1
false 12
end
