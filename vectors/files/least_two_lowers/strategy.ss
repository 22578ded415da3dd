simsat-strategy 1
goals 1
goal 0 unsat
turns t
t
proof 8
path 0
part 0 0
part 0 1
part 0 2
cube 1 2 3
least 0 2
false 1
false 2
end
