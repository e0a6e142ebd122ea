#!/usr/bin/env python3
"""Times `sim` and `show`, and the splitting of a wide gate.

Run by hand, outside the gate, after the launcher has built the program:
    python3 bench/commands.py [RUNS]
It prints nanoseconds a gate and step of `sim` on 20,000 gates over 1,000 steps, microseconds a signal of `show` on
10,000 and on 100,000 signals, and nanoseconds a place of `map 4 0` on a gate with 255 pins and 4,000 or 40,000 rows.
Each figure is the least processor time of RUNS runs (5 unless given), less that of a run on a small text.
"""

import os
import random
import tempfile

from first_path import random_circuit
from timing import runs_wanted, seconds, written

GATES = 20_000
STEPS = 1_000


def vectors(width, steps):
    draw = random.Random(steps)
    return "".join("".join(draw.choice("01") for _ in range(width)) + "\n" for _ in range(steps))


def wide_gate(rows):
    """Two literals a row, so that the subject circuit stays within its limit."""
    draw = random.Random(rows)
    pins = " ".join(f"i{k}" for k in range(255))
    lines = []
    for _ in range(rows):
        row = ["-"] * 255
        for place in draw.sample(range(255), 2):
            row[place] = draw.choice("01")
        lines.append("".join(row) + " 1\n")
    return f".inputs {pins}\n.outputs y\n.names {pins} y\n{''.join(lines)}"


def main():
    runs = runs_wanted()
    with tempfile.TemporaryDirectory() as folder:
        out = os.path.join(folder, "out")
        signals = GATES * 10 // 7
        circuit = written(folder, "circuit.blif", random_circuit(signals))
        few = written(folder, "few.txt", vectors(signals // 10, 1))
        many = written(folder, "many.txt", vectors(signals // 10, STEPS + 1))
        took = seconds(["sim", circuit, many, out], runs) - seconds(["sim", circuit, few, out], runs)
        print(f"sim: {took / GATES / STEPS * 1e9:.2f} nanoseconds a gate and step")
        for size in (10_000, 100_000):
            path = written(folder, "show.blif", random_circuit(size))
            print(f"show: {seconds(['show', path], runs) / size * 1e6:.2f} microseconds a signal at {size:,}")
        for rows in (4_000, 40_000):
            path = written(folder, "wide.blif", wide_gate(rows))
            took = seconds(["map", "4", "0", path, out], runs)
            print(f"wide gate: {took / rows / 255 * 1e9:.2f} nanoseconds a place at {rows:,} rows")


if __name__ == "__main__":
    main()
