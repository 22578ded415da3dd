simsat-strategy 1
goals 1
goal 0 unsat
turns tt
t
t
proof 19
path 0
part 0 0
part 0 1
part 0 2
part 0 3
cube 1 2 3 4
least 1 6
least 0 6
false 3
false 0
false 0
false 2
false 0
false 0
false 1
false 1
false 1
false 1
false 1
end
