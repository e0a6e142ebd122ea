#!/usr/bin/env python3
"""Times the reading of four kinds of large text, in microseconds a kilobyte, at two sizes each.

Run by hand, outside the gate, after the launcher has built the program:
    python3 bench/reading.py [RUNS]
Each figure is the least processor time of RUNS runs (5 unless given).
"""

import os
import tempfile

from timing import runs_wanted, seconds



def comments(size):
    return "# nothing but a comment\n" * (size // 24)


def one_line(size):
    """One logical line of inputs that all have different names."""
    names = []
    length = 0
    while length < size - 9 and len(names) < 99_999:
        names.append(f"{len(names):0160d}")
        length += 161
    return ".inputs " + " ".join(names) + "\n"


def latches(count):
    lines = [".inputs a"] + [f".latch a l{k} {k % 2}" for k in range(count)]
    return "\n".join(lines) + "\n"


def rows(count):
    return ".inputs a b\n.outputs y\n.names a b y\n" + "1- 1\n-1 1\n" * (count // 2)


CASES = [
    ("comments", comments, 4_000_000, 16_000_000),
    ("one line", one_line, 4_000_000, 16_000_000),
    ("latches", latches, 25_000, 99_999),
    ("rows of one gate", rows, 25_000, 100_000),
]


def main():
    runs = runs_wanted()
    with tempfile.TemporaryDirectory() as folder:
        out = os.path.join(folder, "out.blif")
        print("| text | smaller | larger |\n|---|---|---|")
        for name, make, small, large in CASES:
            cells = []
            for size in (small, large):
                path = os.path.join(folder, "in.blif")
                with open(path, "w") as text:
                    text.write(make(size))
                kilobytes = os.path.getsize(path) / 1000
                took = seconds(["map", "2", "0", path, out], runs)
                cells.append(f"{took / kilobytes * 1e6:.2f}")
            print(f"| {name} | {cells[0]} | {cells[1]} |")


if __name__ == "__main__":
    main()
