simsat-strategy 2
goals 1
goal 0 unsat
turns t
t
proof 7
path 0
part 0 0
part 0 1
cube 1 2
learn | 2 0 1 0
false 0
false 0
end
