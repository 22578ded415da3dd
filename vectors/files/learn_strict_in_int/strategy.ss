simsat-strategy 2
goals 1
goal 0 unsat
turns t
t
proof 6
path 0
part 0 0
part 0 1
learn > 0
false 0
false 0
end
