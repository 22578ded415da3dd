simsat-strategy 1
goals 1
goal 0 unsat
turns ttt
t
t
t
proof 10
path 0
part 0 0
part 0 1
part 0 2
part 0 3
cube 1 2 3 4
least 1 1
least 0 1
least 2 1
false 2
end
