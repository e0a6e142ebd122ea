#!/usr/bin/env python3
"""Times `map` on a chain and on a random circuit, in microseconds a signal.

Run by hand, outside the gate, after the launcher has built the program:
    python3 bench/first_path.py [RUNS]
Each figure is the least processor time of RUNS runs (5 unless given), less that of a run on an empty text.
"""

import os
import random
import tempfile

from timing import runs_wanted, seconds

SIZES = [1_000, 10_000, 100_000]


def chain(signals):
    """One input and a chain of inverters, so that the order of gates is one long path."""
    lines = [".model chain", ".inputs i", f".outputs g{signals - 2}"]
    for gate in range(signals - 1):
        pin = f"g{gate - 1}" if gate else "i"
        lines += [f".names {pin} g{gate}", "0 1"]
    return "\n".join(lines + [".end", ""])


def random_circuit(signals):
    """A tenth inputs, a fifth latches, the rest gates of two pins; gates stand in a shuffled order."""
    draw = random.Random(signals)
    inputs = [f"i{k}" for k in range(signals // 10)]
    latches = [f"l{k}" for k in range(signals // 5)]
    gates = [f"g{k}" for k in range(signals - len(inputs) - len(latches))]
    ready = inputs + latches
    bodies = []
    for gate in gates:
        bodies.append(f".names {draw.choice(ready)} {draw.choice(ready)} {gate}\n11 1\n00 1")
        ready.append(gate)
    draw.shuffle(bodies)
    lines = [".model random", ".inputs " + " ".join(inputs), ".outputs " + " ".join(gates[-8:])]
    lines += [f".latch {draw.choice(gates)} {latch} {draw.randrange(2)}" for latch in latches]
    return "\n".join(lines + bodies + [".end", ""])


def main():
    runs = runs_wanted()
    with tempfile.TemporaryDirectory() as folder:
        out = os.path.join(folder, "out.blif")
        empty = os.path.join(folder, "empty.blif")
        open(empty, "w").close()
        base = seconds(["map", "2", "0", empty, out], runs)
        print("| circuit | " + " | ".join(f"{size:,} signals" for size in SIZES) + " |")
        print("|---|" + "---|" * len(SIZES))
        for name, make in [("chain", chain), ("random", random_circuit)]:
            cells = []
            for size in SIZES:
                path = os.path.join(folder, f"{name}-{size}.blif")
                with open(path, "w") as text:
                    text.write(make(size))
                took = seconds(["map", "2", "0", path, out], runs) - base
                cells.append(f"{took / size * 1e6:.2f}")
            print(f"| {name} | " + " | ".join(cells) + " |")


if __name__ == "__main__":
    main()
