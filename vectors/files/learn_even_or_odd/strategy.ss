simsat-strategy 2
goals 1
goal 0 unsat
turns t
t
proof 17
path 0
part 0 0
part 0 1
learn | 2 0 1 0 | 2 1 1 0
cube 3 4
least 0 2
false 0
false 1
cases 3 2
cube 2 4
least 0 2
false 0
false 1
cube 1 4
least 0 2
false 1
false 0
end
