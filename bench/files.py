#!/usr/bin/env python3
"""Writes a well-formed strategy file of about a given size.

    python3 bench/files.py KIND BYTES > FILE

KIND is one of
    proof     one move, and a proof of `sum` lines
    moves     one node with as many different moves
    split     a proof of `split` lines with literals of several variables
    mixed     half moves of one node, half proof lines
    nodes     a tree of depth 2: nodes with eight moves each
    sections  many small sections
    repeated  as `moves`, but the last move repeats the first
    long      moves of one node that differ only at the end of long lines
Only the grammar holds; no proof of these proves anything.
"""
import sys


def lines_of(count, line):
    return "".join(line(i) for i in range(count))


def file_of(turns, tree, proof, length):
    return (
        "simsat-strategy 1\ngoals 1\ngoal 0 sat\n"
        f"turns {turns}\n{tree}proof {length}\n{proof}end\n"
    )


def sums(count):
    return lines_of(count - 1, lambda i: f"sum 1 {i} 3 {i + 1} 2\n") + f"false {count}\n"


def splits(count):
    return lines_of(count, lambda i: f"split >= {-i} 2 {i} -3 {i + 1} 5 {i + 7}\n") + lines_of(
        count + 1, lambda i: f"false {i}\n"
    )


def node(count, line):
    return f"o {count}\n" + lines_of(count, line)


def made(kind, size):
    if kind == "proof":
        count = size // 20
        return file_of("to", "t\no 1\nm 1 1 1 0\n", sums(count), count)
    if kind == "moves":
        return file_of("to", "t\n" + node(size // 16, lambda i: f"m 1 {i} 1 0\n"), "false 0\n", 1)
    if kind == "split":
        count = min(size // 50, 1_048_000)
        return file_of("-", "", splits(count), 2 * count + 1)
    if kind == "mixed":
        count = size // 36
        return file_of("to", "t\n" + node(count, lambda i: f"m 1 {i} 1 0\n"), sums(count), count)
    if kind == "nodes":
        inner = node(8, lambda j: f"m 2 {j} 1 0\n")
        return file_of("oo", node(size // 110, lambda i: f"m 1 {i}\n" + inner), "false 0\n", 1)
    if kind == "sections":
        count = size // 100
        one = "turns to\nt\no 1\nm 1 1 1 0\nproof 4\npath 0\ndef 1 0\nsum 1 0 1 1 1\nfalse 2\n"
        body = lines_of(count, lambda i: f"goal {i} sat\n" + one)
        return f"simsat-strategy 1\ngoals {count}\n" + body + "end\n"
    if kind == "repeated":
        count = size // 16
        line = lambda i: f"m 1 {i % (count - 1)} 1 0\n"
        return file_of("to", "t\n" + node(count, line), "false 0\n", 1)
    if kind == "long":
        head = "".join(f" 1 {v}" for v in range(60))
        turns = "t" * 61 + "o"
        line = lambda i: f"m 1 0{head} {i + 1} 60\n"
        return file_of(turns, "t\n" * 61 + node(size // 300, line), "false 0\n", 1)
    raise SystemExit(__doc__)


if __name__ == "__main__":
    if len(sys.argv) != 3:
        raise SystemExit(__doc__)
    sys.stdout.write(made(sys.argv[1], int(sys.argv[2])))
