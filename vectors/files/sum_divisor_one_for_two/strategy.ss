simsat-strategy 1
goals 1
goal 0 unsat
turns tt
t
t
proof 7
path 0
part 0 0
part 0 1
part 0 2
sum 1 1 1 2 1
sum 1 3 1 4 1
false 5
end
