simsat-strategy 2
goals 1
goal 0 unsat
turns t
t
proof 6
path 0
part 0 0
part 0 1
learn >= 4503599627370495 1 0
false 3
false 3
end
