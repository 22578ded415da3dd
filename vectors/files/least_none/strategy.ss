simsat-strategy 1
goals 1
goal 0 unsat
turns t
t
proof 5
path 0
part 0 0
part 0 1
cube 1 2
least 0 0
end
