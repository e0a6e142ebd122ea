#!/bin/bash
# Times the reading of texts with several models beside that of a text with one, for the same circuit.
#
#   bench/models.sh [RUNS]
#
# A ring of 10,000 instances of a model, each with nine gates and a latch, so of 100,000 signals: once side by side, and once 100 in each
# of 100 instances of a model between. The flat text of either has the same names, so that `show` says the same of both.
# Said is the least processor time of RUNS runs (5 unless given) of `show`, and of `sim` for no step, which does little but read; and the
# ratio to the flat text, which should be at most 3.
#
# Skips where the program isn't built.
set -eu
. "$(dirname "$0")/program.sh"

PYTHONPATH=$here PYTHONDONTWRITEBYTECODE=1 python3 - "$@" <<'END_OF_PROGRAM'
import os
import tempfile

from timing import report, runs_wanted, seconds, written

INSTANCES = 10_000
ROWS = 100
GATES = 9


class Model:
    """A name and statements: the word of each, its names, and what follows them; for `.subckt` the model, and a name for each formal."""

    def __init__(self, name, statements):
        self.name, self.statements = name, statements

    def text(self, ports):
        lines = [f".model {self.name}", *ports]
        for word, what, rest in self.statements:
            if word == ".subckt":
                lines.append(" ".join([word, what.name, *(f"{formal}={actual}" for formal, actual in rest.items())]))
            else:
                lines.append(" ".join([word, *what]) + rest)
        return [*lines, ".end"]

    def flat(self, bound, suffix):
        """The statements of an instance of which some names are bound, and the others get the suffix."""
        def renamed(name):
            return bound.get(name, name + suffix)

        number = 0
        for word, what, rest in self.statements:
            if word == ".subckt":
                number += 1
                yield from what.flat({formal: renamed(actual) for formal, actual in rest.items()}, f"{suffix}@{number}")
            else:
                yield word, [renamed(name) for name in what], rest


def stage():
    """Gates of two pins over the input and one another, and a latch behind the last."""
    pins = ["y", "x", *(f"g{gate}" for gate in range(GATES))]
    gates = [(".names", pins[gate:gate + 3], f"\n{gate % 2}1 1\n1- 1") for gate in range(GATES)]
    return Model("stage", [*gates, (".latch", [pins[-1], "y"], " 0")])


def row(name, model, count, first, last):
    """A model placed so often, each instance behind the one before; the first behind `first`, and the last drives `last`."""
    wires = [first, *(f"w{place}" for place in range(1, count)), last]
    return Model(name, [(".subckt", model, {"x": wires[place], "y": wires[place + 1]}) for place in range(count)])


def texts():
    """For each form its text and the flat one."""
    inner = stage()
    middle = row("row", inner, INSTANCES // ROWS, "x", "y")
    for form, model, count, others in (("side by side", inner, INSTANCES, [inner]), ("nested", middle, ROWS, [middle, inner])):
        top = row("ring", model, count, "end", "end")
        several = top.text([".outputs end"])
        for other in others:
            several += other.text([".inputs x", ".outputs y"])
        yield form, several, Model("ring", top.flat({}, "")).text([".outputs end"])


def text_of(lines):
    return "".join(line + "\n" for line in lines)


def main():
    runs = runs_wanted()
    with tempfile.TemporaryDirectory() as folder:
        steps = written(folder, "no_steps", "")
        out = os.path.join(folder, "out")
        for form, several, one in texts():
            paths = [written(folder, name, text_of(lines)) for name, lines in (("several.blif", several), ("flat.blif", one))]
            if report(paths[0]) != report(paths[1]):
                raise SystemExit(f"the models {form} and their flat text have different circuits")
            for command, words in (("show", lambda path: ["show", path]), ("sim", lambda path: ["sim", path, steps, out])):
                took = [seconds(words(path), runs) for path in paths]
                print(f"{INSTANCES:,} instances {form}, {command}: {took[0]:.3f} s, {took[0] / took[1]:.2f} times the flat text")


main()
END_OF_PROGRAM
