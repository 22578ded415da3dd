#!/usr/bin/env python3
"""Instructions a byte and peak memory of the tokens and expressions of generated scripts.

    python3 bench/reader.py build            builds bench/work/reader_bench from this repository's crates
    python3 bench/reader.py inputs           writes the scripts into bench/work/inputs, the same each time
    python3 bench/reader.py measure [NAME ..]   measures that program on them (valgrind, /usr/bin/time)

`script-1` and `script-10` are 1 and 10 million bytes of assertions, one after the other, `one-1` and `one-10` one
assertion of that size, `open-10` ten million `(`, `letters-10` ten million `a`. The program is `reader_bench.rt.txt`, a
crate only where `build` makes it one.
"""

import random
import re
import shutil
import subprocess
import sys
import tempfile
from pathlib import Path

BENCH = Path(__file__).resolve().parent
WORK = BENCH / "work"
CRATES = ["ss_names", "smt_lex", "smt_tree"]

NAMES = ["x", "y", "speed", "level_of_tank", "|a quoted name|", "t!12", "k@init"]


def term(rng, depth):
    """A linear term."""
    if depth == 0 or rng.random() < 0.3:
        return rng.choice(NAMES) if rng.random() < 0.6 else str(rng.randrange(100000))
    if rng.random() < 0.2:
        return f"(* {rng.randrange(1000)} {rng.choice(NAMES)})"
    count = rng.randrange(2, 4)
    return "(" + rng.choice("+-") + " " + " ".join(term(rng, depth - 1) for _ in range(count)) + ")"


def formula(rng, depth):
    """A formula over such terms, a line for each part of its outer levels."""
    if depth == 0:
        return f"({rng.choice(['<', '<=', '>', '>=', '='])} {term(rng, 2)} {term(rng, 2)})"
    if rng.random() < 0.2:
        return f"(forall ((z{depth} Real)) {formula(rng, depth - 1)})"
    join = "\n" + " " * (8 - 2 * depth)
    parts = join.join(formula(rng, depth - 1) for _ in range(rng.randrange(2, 4)))
    return f"({rng.choice(['and', 'or', '=>'])}{join}{parts})"


def script(size, seed):
    """Commands, one after the other, of at least so many bytes in all."""
    rng = random.Random(seed)
    parts, length = ["(set-logic LRA) ; generated\n"], 0
    while length < size:
        part = f"(assert {formula(rng, 3)}) ; {rng.randrange(1000)}\n"
        parts.append(part)
        length += len(part)
    return "".join(parts)


def one(size, seed):
    """One assertion."""
    rng = random.Random(seed)
    parts, length = [], 0
    while length < size:
        part = formula(rng, 3)
        parts.append(part)
        length += len(part) + 1
    return "(assert (and\n" + "\n".join(parts) + "))\n"


def build():
    """Builds the program in a repository of its own, over copies of the crates."""
    repository = WORK / "reader_repository"
    shutil.rmtree(repository, ignore_errors=True)
    for name in CRATES:
        shutil.copytree(BENCH.parent / "crates" / name, repository / "crates" / name)
    program = repository / "crates" / "reader_bench"
    (program / "src").mkdir(parents=True)
    shutil.copy(BENCH / "reader_bench.rt.txt", program / "src" / "main.rt")
    lines = [line for line in (BENCH.parent / "crates.txt").read_text().splitlines() if line.split(":")[0] in CRATES]
    lines.append("reader_bench: " + " ".join(CRATES))
    (repository / "crates.txt").write_text("\n".join(lines) + "\n")
    (program / "script").write_text("")
    subprocess.run(["git", "init", "-q"], cwd=repository, check=True)
    subprocess.run(["rt", "run"], cwd=program, check=False)
    shutil.copy(program / "out" / "reader_bench", WORK / "reader_bench")


def inputs():
    """Writes the scripts."""
    folder = WORK / "inputs"
    folder.mkdir(parents=True, exist_ok=True)
    for millions in (1, 10):
        (folder / f"script-{millions}").write_text(script(millions * 1000000, 1))
        (folder / f"one-{millions}").write_text(one(millions * 1000000, 2))
    (folder / "open-10").write_text("(" * 10000000)
    (folder / "letters-10").write_text("a" * 10000000)


def measured(program, script, is_tree):
    """What it printed, the instructions, the peak memory in kilobytes and the seconds."""
    with tempfile.TemporaryDirectory() as folder:
        (Path(folder) / "script").symlink_to(script)
        if is_tree:
            (Path(folder) / "expressions").touch()
        grind = subprocess.run(
            ["valgrind", "--tool=callgrind", "--callgrind-out-file=/dev/null", program],
            cwd=folder, capture_output=True, text=True)
        instructions = int(re.search(r"Collected : (\d+)", grind.stderr).group(1))
        timed = subprocess.run(["/usr/bin/time", "-f", "%M %e", program], cwd=folder, capture_output=True, text=True)
        memory, seconds = timed.stderr.split()[-2:]
        return timed.stdout.strip(), instructions, int(memory), float(seconds)


def measure(names):
    """A line for each script, for its tokens and for its expressions."""
    folder = WORK / "inputs"
    for name in names or sorted(path.name for path in folder.iterdir()):
        path = folder / name
        for is_tree in (False, True):
            printed, instructions, memory, seconds = measured(str(WORK / "reader_bench"), path, is_tree)
            what = "expressions" if is_tree else "tokens"
            print(f"{name:11} {what:11} printed {printed:12} {instructions / path.stat().st_size:7.2f} instructions a byte, "
                  f"{memory:8} kB, {seconds:5.2f} s", flush=True)


def main():
    what, names = sys.argv[1], sys.argv[2:]
    if what == "build":
        build()
    elif what == "inputs":
        inputs()
    else:
        measure(names)


if __name__ == "__main__":
    main()
