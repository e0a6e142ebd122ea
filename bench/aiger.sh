#!/bin/bash
# Times the reading of ASCII AIGER beside that of BLIF, for the same circuits.
#
#   bench/aiger.sh [RUNS]
#
# Random circuits of 7,000 and of 70,000 ands are written in both formats, with the same names, so that `show` says the same of both.
# `sim` reads each text for no step at all. Each figure is the least processor time of RUNS runs (5 unless given), less that of a
# run on an empty text: in microseconds a kilobyte, and in nanoseconds a gate.
#
# Skips where the program isn't built.
set -eu
. "$(dirname "$0")/program.sh"

PYTHONPATH=$here PYTHONDONTWRITEBYTECODE=1 python3 - "$@" <<'END'
import os
import random
import tempfile

from timing import report, runs_wanted, seconds, written

SIZES = [7_000, 70_000]
OUTPUTS = 8


class Design:
    """A tenth as many inputs as ands, a fifth as many latches, and ands of two earlier literals."""

    def __init__(self, ands):
        draw = random.Random(ands)
        self.inputs, self.latches = ands // 10, ands // 5
        self.first = 1 + self.inputs + self.latches
        self.last = self.first + ands - 1
        self.ands = [[2 * draw.randrange(1, v) + draw.randrange(2) for _ in "ab"] for v in range(self.first, self.last + 1)]
        self.nexts = [2 * draw.randrange(self.first, self.last + 1) + draw.randrange(2) for _ in range(self.latches)]
        self.resets = [draw.randrange(2) for _ in range(self.latches)]
        self.outputs = [2 * (self.last - place) + place % 2 for place in range(OUTPUTS)]

    def gates(self):
        """How many gates the circuit has: the ands, the negated nexts and the outputs."""
        return len(self.ands) + sum(literal % 2 for literal in self.nexts) + len(self.outputs)

    def aiger(self):
        head = f"aag {self.last} {self.inputs} {self.latches} {OUTPUTS} {len(self.ands)}"
        inputs = [str(2 * (1 + place)) for place in range(self.inputs)]
        latches = [
            f"{2 * (1 + self.inputs + place)} {literal} {reset}"
            for place, (literal, reset) in enumerate(zip(self.nexts, self.resets))
        ]
        outputs = [str(literal) for literal in self.outputs]
        ands = [f"{2 * (self.first + place)} {left} {right}" for place, (left, right) in enumerate(self.ands)]
        return "\n".join([head, *inputs, *latches, *outputs, *ands, ""])

    def name(self, variable):
        if variable <= self.inputs:
            return f"i%{variable - 1}"
        return f"l%{variable - 1 - self.inputs}" if variable < self.first else f"a%{variable}"

    def gate(self, literals, name):
        pins = " ".join(self.name(literal // 2) for literal in literals)
        row = "".join("10"[literal % 2] for literal in literals)
        return f".names {pins} {name}\n{row} 1"

    def blif(self):
        lines = [".model aiger"]
        lines.append(".inputs " + " ".join(f"i%{place}" for place in range(self.inputs)))
        lines.append(".outputs " + " ".join(f"o%{place}" for place in range(OUTPUTS)))
        for place, (literal, reset) in enumerate(zip(self.nexts, self.resets)):
            source = f"x%{place}" if literal % 2 else self.name(literal // 2)
            lines.append(f".latch {source} l%{place} {reset}")
        lines += [self.gate(literals, f"a%{self.first + place}") for place, literals in enumerate(self.ands)]
        lines += [self.gate([literal], f"x%{place}") for place, literal in enumerate(self.nexts) if literal % 2]
        lines += [self.gate([literal], f"o%{place}") for place, literal in enumerate(self.outputs)]
        return "\n".join([*lines, ".end", ""])


def main():
    runs = runs_wanted()
    with tempfile.TemporaryDirectory() as folder:
        steps = written(folder, "no_steps", "")
        out = os.path.join(folder, "out")
        base = seconds(["sim", written(folder, "empty.blif", ""), steps, out], runs)
        for size in SIZES:
            design = Design(size)
            texts = {"AIGER": written(folder, "in.aag", design.aiger()), "BLIF": written(folder, "in.blif", design.blif())}
            if len({report(path) for path in texts.values()}) != 1:
                raise SystemExit(f"the two texts of {size:,} ands have different circuits")
            for kind, path in texts.items():
                took = seconds(["sim", path, steps, out], runs) - base
                kilobytes = os.path.getsize(path) / 1000
                print(
                    f"{kind} of {size:,} ands: {took / kilobytes * 1e6:.2f} microseconds a kilobyte, "
                    f"{took / design.gates() * 1e9:.0f} nanoseconds a gate"
                )


main()
END
