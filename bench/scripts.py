#!/usr/bin/env python3
"""The solver over a folder of scripts, beside z3 and cvc5: a table by family.

    bench/scripts.py FOLDER SOLVER CHECKER [--peers z3 cvc5] [--limit 10] [--jobs 1] [--list]

A family is a folder below FOLDER. A script tells its verdict by `(set-info :status ..)`. SOLVER and CHECKER are the built programs. Each solved
script's file goes through the checker, which has to print `accepted` with the same verdict. Seconds are processor seconds of the decided ones,
with reading and storing; `check` those of the checker; `lines` the median of the lines of the files; `MB` the greatest peak memory. Status 1 where
a verdict is wrong, or the checker does not accept.
"""

import argparse
import concurrent.futures
import os
import re
import signal
import statistics
import subprocess
import sys
import tempfile
import threading
import time

PEERS = {
    "z3": lambda script, limit: ["z3", f"-T:{limit}", script],
    "cvc5": lambda script, limit: ["cvc5", "--cegqi-nested-qe", f"--tlimit={limit * 1000}", script],
}


def run(words, limit):
    """What a command printed, its processor seconds, its wall seconds and its peak memory in MB; what is stopped printed nothing."""
    with tempfile.TemporaryFile() as out:
        began = time.monotonic()
        child = subprocess.Popen(words, stdout=out, stderr=subprocess.DEVNULL, stdin=subprocess.DEVNULL, start_new_session=True)
        late = []

        def stop():
            late.append(True)
            try:
                os.killpg(child.pid, signal.SIGKILL)
            except ProcessLookupError:
                pass

        timer = threading.Timer(limit, stop)
        timer.start()
        _, status, used = os.wait4(child.pid, 0)
        timer.cancel()
        child.returncode = status
        out.seek(0)
        text = "" if late else out.read(1 << 20).decode("latin-1")
    return text, used.ru_utime + used.ru_stime, time.monotonic() - began, used.ru_maxrss / 1024


def expected(script):
    with open(script, encoding="latin-1") as file:
        found = re.search(r":status\s+(sat|unsat)", file.read())
    return found.group(1) if found else None


def verdict(text):
    words = text.split()
    return words[0] if words and words[0] in ("sat", "unsat") else None


def measure(script, solver, checker, peers, limit):
    """What came of one script: for each program its verdict (None: not decided) and its seconds."""
    row = {"status": expected(script)}
    with tempfile.TemporaryDirectory() as room:
        file = f"{room}/answer.ss"
        text, seconds, _, memory = run([solver, script, "--strategy", file], limit)
        row["simsat"] = (verdict(text), seconds)
        row["said"], row["memory"] = text.strip()[:80] or "stopped", memory
        row["accepted"], row["check"], row["lines"] = True, 0.0, None
        if verdict(text):
            said, row["check"], _, _ = run([checker, script, file], 10 * limit)
            row["accepted"] = said.strip() == f"accepted {verdict(text)}"
            with open(file, "rb") as kept:
                row["lines"] = kept.read().count(b"\n")
    for peer in peers:
        text, seconds, _, _ = run(PEERS[peer](script, limit), limit + 1)
        row[peer] = (verdict(text), seconds)
    return row


def cells(rows, program):
    done = [row[program] for row in rows if row[program][0]]
    return f"{len(done)}, {sum(seconds for _, seconds in done):.2f}"


def table(by_family, peers):
    print("| family | scripts | decided, s | check, s | lines | MB |" + "".join(f" {peer} |" for peer in peers))
    print("|" + "---|" * (6 + len(peers)))
    every = [row for rows in by_family.values() for row in rows]
    for family, rows in [*sorted(by_family.items()), ("all", every)]:
        lines = [row["lines"] for row in rows if row["lines"] is not None]
        middle = f"{statistics.median(lines):.0f}" if lines else "-"
        check, memory = sum(row["check"] for row in rows), max(row["memory"] for row in rows)
        own = f"| {family} | {len(rows)} | {cells(rows, 'simsat')} | {check:.2f} | {middle} | {memory:.0f} |"
        print(own + "".join(f" {cells(rows, peer)} |" for peer in peers))


def main():
    words = argparse.ArgumentParser(description=__doc__, formatter_class=argparse.RawDescriptionHelpFormatter)
    words.add_argument("folder")
    words.add_argument("solver")
    words.add_argument("checker")
    words.add_argument("--peers", nargs="*", default=[], choices=sorted(PEERS))
    words.add_argument("--limit", type=int, default=10)
    words.add_argument("--jobs", type=int, default=1)
    words.add_argument("--list", action="store_true")
    asked = words.parse_args()
    scripts = sorted(f"{at}/{name}" for at, _, names in os.walk(asked.folder) for name in names if name.endswith(".smt2"))
    solver, checker = os.path.abspath(asked.solver), os.path.abspath(asked.checker)
    with concurrent.futures.ThreadPoolExecutor(asked.jobs) as pool:
        rows = list(pool.map(lambda it: measure(it, solver, checker, asked.peers, asked.limit), scripts))
    by_family, bad = {}, 0
    for script, row in zip(scripts, rows):
        name = os.path.relpath(script, asked.folder)
        by_family.setdefault(name.split("/")[0], []).append(row)
        found = row["simsat"][0]
        wrong = found and row["status"] and found != row["status"]
        bad += bool(wrong) + (not row["accepted"])
        if asked.list or wrong or not row["accepted"]:
            told = "WRONG" if wrong else "" if row["accepted"] else "NOT ACCEPTED"
            seconds = "".join(f" {program} {row[program][0]} {row[program][1]:.2f}" for program in ["simsat", *asked.peers])
            print(f"{name}:{seconds} lines {row['lines']} MB {row['memory']:.0f} {told}")
    table(by_family, asked.peers)
    lost = [(os.path.relpath(it, asked.folder), row["said"]) for it, row in zip(scripts, rows) if not row["simsat"][0]]
    print()
    for name, said in lost:
        print(f"- not decided: {name} ({said})")
    print(f"wrong or not accepted: {bad}")
    sys.exit(1 if bad else 0)


if __name__ == "__main__":
    main()
