simsat-strategy 1
goals 1
goal 0 unsat
turns tt
t
t
proof 14
path 0
part 0 0
part 0 1
part 1 0
part 1 1
part 1 2
part 1 3
cases 2 2
sum 1 3 1 7 1
sum 1 8 1 6 1
false 9
sum 1 4 1 7 1
sum 1 8 1 5 1
false 9
end
