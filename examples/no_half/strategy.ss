simsat-strategy 1
goals 1
goal 0 unsat
turns tt
t
t
proof 11
path 0
part 0 0
part 0 1
part 1 0
part 1 1
cube 3 4 2
least 0 2
least 1 2
false 2
false 0
false 1
end
