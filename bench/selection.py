#!/usr/bin/env python3
"""Time and peak memory of `select` on skeletons and matrices of several sizes.

    python3 bench/selection.py build      builds bench/work/selection_bench from this repository's crates, without a proof
    python3 bench/selection.py measure    measures it: the time on a processor of a run that selects so often that nodes times
                                          literals are at least 20,000 in all, the least of three runs (of the largest
                                          sizes one), less that of the same run without the call

The program is `selection_bench.rt.txt`, a crate only where `build` makes it one. `rt try` compiles it, with checks of each
access to memory, and runs it from a folder of its own; `build` takes it from there while it runs.
"""

import shutil
import subprocess
import sys
import tempfile
import time
from pathlib import Path

BENCH = Path(__file__).resolve().parent
WORK = BENCH / "work"
PROGRAM = WORK / "selection_bench"
CRATES = ["lin_term", "dom_core", "dom_rat", "game_tree", "game_play", "lose_system", "term_select"]
SIZES = [(branches, literals) for literals in (10, 100, 1000) for branches in (50, 500, 1000)]


def children(root):
    """The processes below one."""
    parents = {}
    for entry in Path("/proc").iterdir():
        if entry.name.isdigit():
            try:
                fields = (entry / "stat").read_text().rpartition(")")[2].split()
                parents[int(entry.name)] = int(fields[1])
            except OSError:
                pass
    found, front = [], [root]
    while front:
        front = [pid for pid, parent in parents.items() if parent in front]
        found += front
    return found


def program_of(root):
    """The program that rt runs, if it does at this moment."""
    for pid in children(root):
        try:
            words = Path(f"/proc/{pid}/cmdline").read_text().split("\0")
        except OSError:
            continue
        for word in words:
            if word.endswith("/program") and "rt-try" in word and "ld.lld" not in words[0] and "clang" not in words[0]:
                return word
    return None


def build():
    """Builds the program in a repository of its own, over copies of the crates."""
    repository = WORK / "selection_repository"
    shutil.rmtree(repository, ignore_errors=True)
    for name in CRATES:
        shutil.copytree(BENCH.parent / "crates" / name, repository / "crates" / name, ignore=shutil.ignore_patterns("out"))
    crate = repository / "crates" / "selection_bench"
    (crate / "src").mkdir(parents=True)
    shutil.copy(BENCH / "selection_bench.rt.txt", crate / "src" / "main.rt")
    lines = [line for line in (BENCH.parent / "crates.txt").read_text().splitlines() if line.split(":")[0] in CRATES]
    lines.append("selection_bench: " + " ".join(CRATES) + " sqlite_items smallvec")
    (repository / "crates.txt").write_text("\n".join(lines) + "\n")
    data = repository / "data"
    data.mkdir()
    words = ["rt", "try"]
    for name, length in (("branches", 1000), ("literals", 100), ("times", 1), ("selected", 1)):
        (data / name).write_bytes(b"." * length)
        words += ["--data", f"{name}={data / name}"]
    with subprocess.Popen(words, cwd=crate) as running:
        while running.poll() is None:
            found = program_of(running.pid)
            if found:
                shutil.copy(found, PROGRAM)
                PROGRAM.chmod(0o755)
                break
            time.sleep(0.2)
        running.wait()
    if not PROGRAM.exists():
        sys.exit("the program was not seen")


def run(branches, literals, times, is_selected):
    """The seconds on a processor and the peak memory in kilobytes of one run."""
    with tempfile.TemporaryDirectory() as folder:
        for name, length in (("branches", branches), ("literals", literals), ("times", times), ("selected", int(is_selected))):
            (Path(folder) / name).write_bytes(b"." * length)
        words = ["/usr/bin/time", "-f", "%U %M", str(PROGRAM)]
        ended = subprocess.run(words, cwd=folder, capture_output=True, text=True, check=True)
        seconds, memory = ended.stderr.split()[-2:]
        return float(seconds), int(memory)


def measure():
    """A line for each size."""
    for branches, literals in SIZES:
        times = max(1, 20000 // (2 * branches * literals))
        repeats = 3 if branches * literals <= 100000 else 1
        runs = [run(branches, literals, times, True) for _ in range(repeats)]
        without = min(run(branches, literals, times, False)[0] for _ in range(repeats))
        seconds = min(seconds for seconds, _ in runs) - without
        unit = seconds * 1e9 / (times * 2 * branches * literals)
        memory = max(memory for _, memory in runs) / 1024
        print(f"| {2 * branches} | {literals} | {seconds * 1000 / times:.0f} | {unit / 1000:.0f} | {memory:.1f} MB |", flush=True)


if __name__ == "__main__":
    WORK.mkdir(exist_ok=True)
    {"build": build, "measure": measure}[sys.argv[1]]()
