#!/usr/bin/env python3
"""Makes inputs for the checker, runs it over them and prints instructions and peak memory.

    python3 bench/checker.py [--checker PROGRAM] [GROUP ..]

The checker is the one that `rt run` leaves in crates/simcheck/out. GROUP is one of
    sums    a proof of as many `sum` lines
    paths   a skeleton of as many paths, and a `path` line each
    file    a strategy file of about as many bytes
    script  a script of about as many bytes
    lets    as many `let` bindings, one inside the other
    defs    as many definitions, each used by the next
    atoms   a conjunction of as many atoms
    nested  as many quantifiers that alternate, and as many declared constants
    least   an elimination with as many cases
    wide    a script of about as many bytes over 1,024 declared constants, each assertion a sum of twenty products
    rows    a strategy file of about as many bytes in which each move has 999 coefficients, and its definition a line
    long    a proof of as many `sum` lines, each over rows of 20 coefficients
    choices a sum of as many choices, compared with a variable that is doubled as many times
    learn   a proof of as many `learn` lines of so many literals, each disjunction used once
    learnt  one `learn` line of so many literals, used as many times
Instructions are counted by `valgrind --tool=callgrind`, peak memory by GNU time.
"""
import argparse
import os
import re
import subprocess
import tempfile

OPEN_END = "(set-logic LRA)\n(assert (forall ((x Real)) (exists ((y Real)) (< x y))))\n(check-sat)\n"
UNKNOWN = "simsat-strategy 1\ngoals 1\ngoal 0 unknown\nend\n"
HEAD = "simsat-strategy 1\ngoals 1\ngoal 0 sat\nturns to\nt\n"


def sums(n):
    body = "sum 1 0 1 1 1\n" * n
    return OPEN_END, f"{HEAD}o 1\nm 1 1 1 0\nproof {n + 3}\npath 0\ndef 1 0\n{body}false {n + 1}\nend\n", n


def paths(n):
    moves = "".join(f"m 1 {i + 1} 1 0\n" for i in range(n))
    body = "".join(f"path {i}\n" for i in range(n))
    return OPEN_END, f"{HEAD}o {n}\n{moves}proof {n + 3}\n{body}def 1 0\nsum 1 0 1 {n} 1\nfalse {n + 1}\nend\n", n


def file(size):
    script, text, _ = sums(max(1, (size - 100) // 14))
    return script, text, len(text)


def script(size):
    atom = "(assert (or (< (+ x (* 3 y) 1) (- y x)) (<= x 10)))\n"
    head = "(set-logic LRA)\n(declare-const x Real)\n(declare-const y Real)\n"
    text = head + atom * ((size - len(head)) // len(atom)) + "(check-sat)\n"
    return text, UNKNOWN, len(text)


def lets(n):
    # no goal: what is asserted would be as deep as the bindings
    text = "(set-logic LRA)\n(declare-const x Real)\n(assert (let ("
    text += " ".join(f"(v{i} (+ x {i}))" for i in range(n)) + f") (< v0 v{n - 1})))\n(check-sat)\n"
    return text, UNKNOWN, n


def defs(n):
    text = "(set-logic LRA)\n(define-fun f0 ((a Real)) Real (+ a 1))\n"
    text += "".join(f"(define-fun f{i} ((a Real)) Real (+ (f{i // 2} a) 1))\n" for i in range(1, n))
    return text + f"(assert (< (f{n - 1} 0) 100))\n(check-sat)\n", UNKNOWN, n


def atoms(n):
    text = "(set-logic LRA)\n(declare-const x Real)\n(assert (and\n"
    text += "".join(f"(< x {i})\n" for i in range(n)) + "))\n(check-sat)\n"
    return text, UNKNOWN, n


def nested(n):
    text = "(set-logic LRA)\n" + "".join(f"(declare-const c{i} Real)\n" for i in range(1024 - n))
    text += "(assert " + "".join(f"({'forall' if i % 2 else 'exists'} ((x{i} Real)) " for i in range(n))
    text += f"(< x0 x{n - 1})" + ")" * n + ")\n(check-sat)\n"
    return text, UNKNOWN, n


def least(n):
    text = f"(set-logic LIA)\n(declare-const x Int)\n(assert (and ((_ divisible {n}) x) ((_ divisible {n}) (+ x 1))))\n(check-sat)\n"
    body = "false 1\n" + "false 0\n" * (n - 1)
    return text, f"simsat-strategy 1\ngoals 1\ngoal 0 unsat\nturns t\nt\nproof {n + 5}\npath 0\npart 0 0\npart 0 1\ncube 1 2\nleast 0 {n}\n{body}end\n", n


def wide(size):
    name = [f"constant_number_{i:04}" for i in range(1024)]
    text = "(set-logic LRA)\n" + "".join(f"(declare-const {c} Real)\n" for c in name)
    lines, k = [], 0
    left = size - len(text)
    while left > 0:
        products = " ".join(f"(* {1000 + (37 * (k + j)) % 9000} {name[(k * 7 + j * 53) % 1024]})" for j in range(20))
        lines.append(f"(assert (<= (+ {products}) {100000 + k}))\n")
        left -= len(lines[-1])
        k += 1
    return text + "".join(lines) + "(check-sat)\n", UNKNOWN, size


def rows(size):
    binders = " ".join(f"(x{i} Real)" for i in range(999))
    text = f"(set-logic LRA)\n(assert (forall ({binders}) (exists ((y Real)) (< x0 y))))\n(check-sat)\n"
    moves = ["m 1 1 1 0\n"]
    left = size
    while left > 0:
        k = len(moves)
        moves.append(f"m 1 {k} " + " ".join(f"{1 + (k * 31 + j * 17) % 997} {j}" for j in range(999)) + "\n")
        left -= len(moves[-1]) + 11
    n = len(moves)
    defs = "".join(f"def {999 + i} 0\n" for i in range(1, n))
    proof = f"proof {n + 3}\n{defs}path 0\ndef 999 0\nsum 1 {n - 1} 1 {n} 1\nfalse {n + 1}\nend\n"
    file = f"simsat-strategy 1\ngoals 1\ngoal 0 sat\nturns {'t' * 999}o\n{'t' + chr(10)}" + "t\n" * 998 + f"o {n}\n{''.join(moves)}{proof}"
    return text, file, len(file)


def long(n):
    binders = " ".join(f"(x{i} Real)" for i in range(20))
    total = " ".join(f"(* {i + 1} x{i})" for i in range(20))
    text = f"(set-logic LRA)\n(assert (forall ({binders}) (exists ((y Real)) (< (+ {total}) y))))\n(check-sat)\n"
    move = "m 1 1 " + " ".join(f"{i + 1} {i}" for i in range(20))
    body = "sum 3 0 2 1 1\n" * n
    file = f"simsat-strategy 1\ngoals 1\ngoal 0 sat\nturns {'t' * 20}o\n" + "t\n" * 20 + f"o 1\n{move}\nproof {n + 4}\npath 0\ndef 20 0\n{body}sum 1 0 1 1 1\nfalse {n + 2}\nend\n"
    return text, file, n


def choices(n):
    text = "(set-logic LRA)\n(declare-const b Bool)\n(declare-const x Real)\n(define-fun d0 () Real x)\n"
    text += "".join(f"(define-fun d{k} () Real (+ d{k - 1} d{k - 1}))\n" for k in range(1, n + 1))
    text += "(assert (< (+" + " (ite b 1 2)" * n + f" 0) d{n}))\n(check-sat)\n"
    return text, UNKNOWN, 2**n


HEAD_2 = HEAD.replace("strategy 1", "strategy 2")


def disjunction(k):
    # false literals, and one that is true
    return "learn" + " >= -1" * (k - 1) + " >= 0\n"


def used(fact, facts, k):
    # all cases but the last are closed at once; the last has one more fact
    return f"cases {fact} {k}\n" + f"false {facts}\n" * (k - 1) if k > 1 else ""


def by_learning(lines, facts):
    lines = "path 0\ndef 1 0\n" + lines + f"sum 1 0 1 1 1\nfalse {facts}\n"
    count = lines.count("\n")
    return OPEN_END, f"{HEAD_2}o 1\nm 1 1 1 0\nproof {count}\n{lines}end\n", count


def learn(n, k):
    lines, facts = [], 2
    for _ in range(n):
        lines.append(disjunction(k) + f"false {facts + k - 1}\n" + used(facts, facts + 1, k))
        facts += 2 if k > 1 else 1
    return by_learning("".join(lines), facts)


def learnt(n, k):
    lines = [disjunction(k) + f"false {2 + k - 1}\n"] + [used(2, 3 + i, k) for i in range(n)]
    return by_learning("".join(lines), 3 + n if k > 1 else 3)


GROUPS = {
    "sums": (sums, (1000, 10000, 100000)),
    "paths": (paths, (1000, 10000, 100000)),
    "file": (file, (100000, 1000000, 10000000)),
    "script": (script, (100000, 1000000, 10000000)),
    "lets": (lets, (200, 2000, 20000)),
    "defs": (defs, (200, 2000, 20000)),
    "atoms": (atoms, (1000, 10000, 100000)),
    "nested": (nested, (125, 250, 500)),
    "least": (least, (2, 64, 4096)),
    "wide": (wide, (1000000, 10000000)),
    "rows": (rows, (1000000, 10000000)),
    "long": (long, (10000, 100000)),
    "choices": (choices, (8, 12, 16)),
    "learn": (learn, ((100, 3), (1000, 3), (10000, 3), (100000, 3), (10000, 1), (10000, 10), (10000, 30))),
    "learnt": (learnt, ((100, 3), (1000, 3), (10000, 3), (100000, 3), (10000, 10), (10000, 30))),
}


def measure(checker, folder, made):
    text, strategy, units = made
    names = os.path.join(folder, "a.smt2"), os.path.join(folder, "a.ss")
    for name, content in zip(names, (text, strategy)):
        with open(name, "w") as out:
            out.write(content)
    timed = subprocess.run(["/usr/bin/time", "-v", checker, *names], capture_output=True, text=True)
    memory = int(re.search(r"Maximum resident set size \(kbytes\): (\d+)", timed.stderr).group(1))
    counted = subprocess.run(
        ["valgrind", "--tool=callgrind", f"--callgrind-out-file={folder}/callgrind.out", checker, *names],
        capture_output=True, text=True)
    instructions = int(re.search(r"Collected : (\d+)", counted.stderr).group(1))
    return units, len(text) + len(strategy), instructions, memory, timed.stdout.strip()


def main():
    here = os.path.dirname(os.path.abspath(__file__))
    parser = argparse.ArgumentParser()
    parser.add_argument("--checker", default=os.path.join(here, "..", "crates", "simcheck", "out", "simcheck"))
    parser.add_argument("groups", nargs="*", default=list(GROUPS))
    chosen = parser.parse_args()
    print("| input | bytes | instructions | a unit | peak memory, KB | printed |")
    print("|---|---|---|---|---|---|")
    with tempfile.TemporaryDirectory() as folder:
        for group in chosen.groups:
            make, sizes = GROUPS[group]
            for size in sizes:
                units, size_in, count, memory, printed = measure(chosen.checker, folder, make(*size) if isinstance(size, tuple) else make(size))
                print(f"| {group} {size} | {size_in} | {count} | {count / units:.1f} | {memory} | {printed} |", flush=True)


main()
