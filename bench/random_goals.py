#!/usr/bin/env python3
"""Random goals with known verdicts: random_goals.py SOLVER CHECKER [SECONDS]. Each goal is made from its number, solved, and what was stored is
checked. A verdict must be the one in random_goals.tsv, or `unknown` with a cause, and each stored file must be accepted. A goal that takes longer
than SECONDS (10) is counted apart. The status is 1 where a verdict or a file is wrong."""
import concurrent.futures
import os
import random
import subprocess
import sys
import tempfile

HERE = os.path.dirname(os.path.abspath(__file__))


def numeral(n):
    return str(n) if n >= 0 else f"(- {-n})"


class Maker:
    """The goal of this sort and number."""

    def __init__(self, sort, number):
        self.rng = random.Random(f"{sort} {number}")
        self.sort = sort

    def term(self, names):
        rng = self.rng
        parts = []
        for name in rng.sample(names, min(len(names), rng.choice([1, 1, 1, 2, 2, 3]))):
            c = rng.choice([1, 1, 1, -1, -1, 2, -2, 3])
            parts.append(name if c == 1 else f"(* {numeral(c)} {name})")
        if rng.random() < 0.5:
            parts.append(numeral(rng.randint(-6, 6)))
        return parts[0] if len(parts) == 1 else f"(+ {' '.join(parts)})"

    def atom(self, names):
        rng = self.rng
        if self.sort == "Int" and rng.random() < 0.15:
            return f"((_ divisible {rng.randint(2, 4)}) {self.term(names)})"
        other = self.term(names) if rng.random() < 0.5 else numeral(rng.randint(-5, 5))
        return f"({rng.choice(['<', '<=', '>', '>=', '<', '>=', '='])} {self.term(names)} {other})"

    def formula(self, names, depth):
        rng = self.rng
        if depth == 0 or rng.random() < 0.2:
            atom = self.atom(names)
            return f"(not {atom})" if rng.random() < 0.15 else atom
        word = rng.choice(["and", "or", "or", "=>", "and", "xor" if rng.random() < 0.2 else "or"])
        count = 2 if word in ("=>", "xor") else rng.choice([2, 2, 3])
        return f"({word} {' '.join(self.formula(names, depth - 1) for _ in range(count))})"

    def script(self):
        rng = self.rng
        lines = [f"(set-logic {'LRA' if self.sort == 'Real' else 'LIA'})"]
        names = [f"c{i}" for i in range(rng.choice([0, 0, 1, 2]))]
        lines += [f"(declare-const {name} {self.sort})" for name in names]
        binders = []
        for i in range(rng.choice([1, 2, 2, 3, 3, 4])):
            binders.append((rng.choice(["forall", "exists"]), f"x{i}"))
            names = [*names, f"x{i}"]
        body = self.formula(names, rng.choice([1, 2, 2, 3]))
        for word, name in reversed(binders):
            body = f"({word} (({name} {self.sort})) {body})"
        return "\n".join([*lines, f"(assert {body})", "(check-sat)", ""])


def run(words, seconds):
    try:
        return subprocess.run(words, capture_output=True, text=True, timeout=seconds)
    except subprocess.TimeoutExpired:
        return None


def judge(solver, checker, seconds, sort, number, verdict):
    """Returns 'late', 'unknown', the verdict, or what is wrong."""
    with tempfile.TemporaryDirectory() as folder:
        script, stored = f"{folder}/goal.smt2", f"{folder}/goal.ss"
        with open(script, "w", encoding="ascii") as out:
            out.write(Maker(sort, number).script())
        solved = run([solver, script, "--strategy", stored], seconds)
        if solved is None:
            return "late"
        printed = solved.stdout.split("\n")
        if solved.returncode or printed[0] not in (verdict, "unknown"):
            return f"WRONG {sort} {number}: {solved.stdout!r}, status {solved.returncode}, and it is {verdict}"
        checked = run([checker, script, stored], 60)
        wanted = "unclaimed\n" if printed[0] == "unknown" else f"accepted {verdict}\n"
        if checked is None or checked.stdout != wanted:
            return f"WRONG {sort} {number}: the checker says {checked and checked.stdout!r}"
        return printed[0]


def main():
    solver, checker = sys.argv[1], sys.argv[2]
    seconds = float(sys.argv[3]) if len(sys.argv) > 3 else 10.0
    with open(f"{HERE}/random_goals.tsv", encoding="ascii") as rows:
        goals = [line.split("\t") for line in rows.read().splitlines()]
    counts = {}
    with concurrent.futures.ThreadPoolExecutor(os.cpu_count()) as pool:
        for (sort, _, _), said in zip(goals, pool.map(lambda it: judge(solver, checker, seconds, it[0], int(it[1]), it[2]), goals)):
            word = said.split(" ")[0]
            counts[sort, word] = counts.get((sort, word), 0) + 1
            if word == "WRONG":
                print(said)
    for (sort, word), count in sorted(counts.items()):
        print(f"{sort} {word} {count}")
    return int(any(word == "WRONG" for _, word in counts))


if __name__ == "__main__":
    sys.exit(main())
