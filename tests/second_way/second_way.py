"""The least period of small circuits found in a second way, and the program tried on them.

    second_way.py PROGRAM FOLDER SEED NUMBER

Circuits of up to four gates are made at random. For each the least period of a mapping is found here by trying: each choice of which gates
have tables and with what lags, and for each table all its covers. A plain reader and simulator of this script's own read and run the
texts. The program's `map`, `prime`, `check`, `sim` and `bound` have to agree with both. Nothing here is taken from the program.
"""

import itertools
import pathlib
import random
import re
import subprocess
import sys

NEVER = 1 << 30


class Circuit:
    """Names, in the order of the text: inputs, latches with what they read and begin with, gates with their pins and rows."""

    def __init__(self):
        self.inputs, self.outputs, self.clocks = [], [], set()
        self.latches, self.gates = {}, {}

    def source(self, signal):
        """The input or gate behind a signal and the initial values on the way to it; no source in a ring of latches."""
        word = []
        while signal in self.latches:
            if len(word) > len(self.latches):
                return None, ()
            signal, initial = self.latches[signal]
            word.append(initial)
        return signal, tuple(word)

    def twins(self):
        """For each signal the first latch that always has its value, where it is a latch; else itself."""
        first, twin = {}, {signal: signal for signal in [*self.inputs, *self.gates]}
        for latch in self.latches:
            source, word = self.source(latch)
            twin[latch] = latch if source is None else first.setdefault((source, word), latch)
        return twin

    def longest_path(self):
        """The most gates on a path without a latch."""
        def length(gate):
            return 1 + max((length(pin) for pin in self.gates[gate][0] if pin in self.gates), default=0)
        return max(map(length, self.gates), default=0)


def read(text):
    """The circuit of a text that has no fault."""
    circuit = Circuit()
    lines = re.sub(r"\\[ \t\r]*\n", " ", re.sub(r"#.*", "", text)).split("\n")
    for words in filter(None, map(str.split, lines)):
        if words[0] == ".inputs":
            circuit.inputs += words[1:]
        elif words[0] == ".outputs":
            circuit.outputs += words[1:]
        elif words[0] == ".clock":
            circuit.clocks.update(words[1:])
        elif words[0] == ".latch":
            circuit.latches[words[2]] = (words[1], int(words[-1] == "1"))
            circuit.clocks.update(words[4:5] if len(words) == 6 and words[4] != "NIL" else [])
        elif words[0] == ".names":
            rows = []
            circuit.gates[words[-1]] = (words[1:-1], rows)
        elif words[0][0] != ".":
            rows.append(("" if len(words) == 1 else words[0], int(words[-1])))
    circuit.inputs = [name for name in circuit.inputs if name not in circuit.clocks]
    return circuit


def value_of_rows(rows, bits):
    """Rows with output 1 list where a gate is 1, rows with output 0 where it is 0; without rows it is 0."""
    met = any(all(place in ("-", bit) for place, bit in zip(places, bits)) for places, _ in rows)
    return int(met == bool(rows[0][1])) if rows else 0


def simulate(circuit, input_rows):
    """The rows of outputs, from the initial values on."""
    state = {latch: initial for latch, (_, initial) in circuit.latches.items()}
    answer = []
    for row in input_rows:
        bits = dict(zip(circuit.inputs, map(int, row))) | state

        def bit(signal):
            if signal not in bits:
                pins, rows = circuit.gates[signal]
                bits[signal] = value_of_rows(rows, [str(bit(pin)) for pin in pins])
            return bits[signal]

        answer.append("".join(str(bit(output)) for output in circuit.outputs))
        state = {latch: bit(read_signal) for latch, (read_signal, _) in circuit.latches.items()}
    return answer


def without_supersets(sets):
    return {one for one in sets if not any(other < one for other in sets)}


def covers(circuit, twin, gate, lag, k, back):
    """All sets of at most k leaves that stand on every walk from the gate at the lag, but for supersets of others."""
    known = {}

    def may_be_leaf(signal, advance):
        if signal in circuit.gates:
            return advance <= lag
        return advance <= 0 if signal in circuit.inputs else advance == -back

    def on_walks_from(node):
        if node not in known:
            signal, advance = node
            known[node] = {frozenset([node])} if may_be_leaf(signal, advance) else set()
            if signal in circuit.gates:
                known[node] |= on_walks_of([(twin[pin], advance) for pin in circuit.gates[signal][0]])
            elif signal in circuit.latches and advance > -back:
                known[node] |= on_walks_of([(twin[circuit.latches[signal][0]], advance - 1)])
        return known[node]

    def on_walks_of(nodes):
        found = {frozenset()}
        for node in nodes:
            found = without_supersets({one | other for one in found for other in on_walks_from(node) if len(one | other) <= k})
        return found

    return on_walks_of([(twin[pin], lag) for pin in circuit.gates[gate][0]])


def least_period(circuit, k, most_lag, back):
    """Registers move forward over a table by at most `most_lag`, and backward by at most `back`."""
    twin, lags = circuit.twins(), range(-back, most_lag + 1)

    def asked_by(cover):
        """The tables that a cover asks for, each with the least lag that it must have and whether no register need stand behind it."""
        asked = [(circuit.source(signal)[0], -back if signal in circuit.latches else advance, signal in circuit.gates)
                 for signal, advance in cover]
        return frozenset(table for table in asked if table[0] in circuit.gates)

    asked = {(gate, lag): without_supersets(set(map(asked_by, covers(circuit, twin, gate, lag, k, back))))
             for gate in circuit.gates for lag in lags}
    wanted = {}
    for output in circuit.outputs:
        source, word = circuit.source(output)
        if source in circuit.gates:
            wanted[source] = max(wanted.get(source, -back), -len(word))

    def period(chosen):
        """The greatest of the least depths of the tables of a choice of lags, `NEVER` where one of them has no lawful leaves."""
        depths = {}

        def depth(gate):
            if gate not in depths:
                depths[gate] = min(map(through, asked[gate, chosen[gate]]), default=NEVER)
            return depths[gate]

        def through(tables):
            if any(gate not in chosen or chosen[gate] < lag for gate, lag, _ in tables):
                return NEVER
            return 1 + max((depth(gate) for gate, lag, direct in tables if direct and chosen[gate] == lag), default=0)

        return max(map(depth, chosen), default=0)

    least = NEVER
    for choice in itertools.product([None, *lags], repeat=len(circuit.gates)):
        chosen = {gate: lag for gate, lag in zip(circuit.gates, choice) if lag is not None}
        if least > 1 and all(gate in chosen and chosen[gate] >= lag for gate, lag in wanted.items()):
            least = min(least, period(chosen))
    return least


def random_text(chance, k):
    """A text of up to four gates of at most k pins, with latches before and behind them, in rings, and equal ones."""
    mark = chance.choice(["", "", "", "+", "++", "~"])
    inputs = [name + mark for name in "abcdef"[:chance.choice([0, 1, 2, 3, 4, 5, 6, 6])]]
    gates = [f"g{number}{mark}" for number in range(chance.choice([0, 1, 2, 3, 4, 4, 4, 4, 4, 4]))]
    latches = [f"q{number}" for number in range(chance.choice([0, 1, 2, 3, 4, 6, 8, 8]))]
    signals = inputs + latches + gates
    clock = chance.choice(["", "", " re clk", " fe clk", " re NIL"])
    latch_lines, reads = [], []
    for latch in latches:
        kinds = [inputs, gates, gates, latches] if gates else [inputs, latches]
        reads.append((chance.choice(chance.choice(kinds) or signals), chance.choice("012")))
        if chance.random() < 0.2:
            reads[-1] = chance.choice(reads)
        latch_lines.append(f".latch {reads[-1][0]} {latch}{clock} {reads[-1][1]}")
    known = latches if latches and chance.random() < 0.5 else inputs + latches
    gate_lines, fresh = [], list(known)
    for gate in chance.sample(gates, len(gates)):
        pins = []
        for _ in range(chance.choice([0, 1] + [k] * 12) if known else 0):
            fresh = [signal for signal in fresh if signal not in pins]
            pins.append(chance.choice(fresh if fresh and chance.random() < 0.8 else known))
        output = chance.choice("01")
        rows = ["".join(chance.choice("01-") for _ in pins) for _ in range(chance.choice([0, 1, 1, 2, 2, 3]))]
        gate_lines.append("\n".join([" ".join([".names", *pins, gate])] + [f"{row} {output}".strip() for row in rows]))
        known, fresh = known + [gate], [gate] * 3 + [signal for signal in fresh if signal not in pins]
    chance.shuffle(gate_lines)
    pool = signals if chance.random() < 0.3 or not gates else gates[:1] + latches + gates
    outputs = list(dict.fromkeys(chance.choice(pool) for _ in range(chance.choice([0, 1, 1, 1, 2, 2, 3, 4]) if pool else 0)))
    clocks = ["clk"] if clock.endswith("clk") and latches and chance.random() < 0.5 else []
    statements = [" ".join([".inputs", *inputs, *clocks]), " ".join([".outputs", *outputs])]
    statements += [".clock clk"] if chance.random() < 0.2 else []
    lines = "\n".join([".model m"] + statements + latch_lines + gate_lines + [".end"][:chance.randint(0, 1)])
    return lines.replace(" ", chance.choice([" ", " ", " \\\n", "\t"])) + chance.choice(["\n", "", "  # the end\n"])


class Disagreement(Exception):
    """Of the program with this script."""


def agree(what, wanted, got):
    if wanted != got:
        raise Disagreement(f"{what}: this script says {wanted}, the program {got}")


class Program:
    def __init__(self, program, folder):
        self.program, self.folder = program, pathlib.Path(folder)

    def say(self, *words):
        """The line of a run that has to end with 0. Words with a dot are names of files in the folder."""
        words = [str(self.folder / word) if "." in word else word for word in map(str, words)]
        run = subprocess.run([self.program, *words], stdout=subprocess.PIPE, text=True, check=False)
        agree(f"status of {' '.join(words)}, which says {run.stdout.strip()}", 0, run.returncode)
        return run.stdout.strip()


def rows_are_prime(rows):
    """Whether rows ascend, each row of `0`, `1` and `-` alone can't hold more, and none can be left out."""
    def points(places):
        return set(itertools.product(*["01" if place == "-" else place for place in places]))

    places = [row for row, _ in rows]
    on = set().union(*map(points, places))
    wider = [row[:at] + "-" + row[at + 1:] for row in places for at in range(len(row)) if row[at] != "-"]
    spared = [set().union(*map(points, places[:at] + places[at + 1:])) for at in range(len(places))]
    ascending = sorted(places, key=lambda row: ["01-".index(place) for place in row])
    return places == ascending and all(output == 1 for _, output in rows) and \
        not any(points(row) <= on for row in wider) and not any(other == on for other in spared)


def as_text(rows):
    return "".join(row + "\n" for row in rows)


def compare(program, text, k, d, chance):
    """Everything that the program says of a text against what is found here; the least periods without lags, with, and with B 1."""
    circuit = read(text)
    (program.folder / "in.blif").write_text(text)
    without, least, least_back = (least_period(circuit, k, *lags) for lags in ((0, 0), (d, 0), (d, 1)))
    for lags, period in (((0, 0), without), ((d, 0), least), ((d, 1), least_back)):
        agree(f"bound {k} {lags}", f"bound period {period}", program.say("bound", k, *lags, "in.blif"))
    input_rows = ["".join(chance.choice("01") for _ in circuit.inputs) for _ in range(chance.randint(4, 16))]
    (program.folder / "rows.txt").write_text(as_text(input_rows))
    wanted = as_text(simulate(circuit, input_rows))
    program.say("sim", "in.blif", "rows.txt", "sim.txt")
    agree(f"rows of sim on {input_rows}", wanted, (program.folder / "sim.txt").read_text())
    for command in ("map", "prime"):
        said = program.say(command, k, d, "in.blif", "out.blif", "out.cert")
        out = read((program.folder / "out.blif").read_text())
        numbers = f"period {least} tables {len(out.gates)} registers {len(out.latches)}"
        agree(f"{command} {k} {d}", numbers, said)
        agree(f"longest path after {command} {k} {d}", least, out.longest_path())
        agree(f"pins after {command} {k} {d}", True, all(len(pins) <= k for pins, _ in out.gates.values()))
        agree(f"inputs after {command} {k} {d}", circuit.inputs, out.inputs)
        agree(f"outputs after {command} {k} {d}", circuit.outputs, out.outputs)
        agree(f"rows after {command} {k} {d}, read here, on {input_rows}", wanted, as_text(simulate(out, input_rows)))
        program.say("sim", "out.blif", "rows.txt", "sim.txt")
        agree(f"rows of sim after {command} {k} {d} on {input_rows}", wanted, (program.folder / "sim.txt").read_text())
        drops = re.search(r"^drops (\d+)$", (program.folder / "out.cert").read_text(), re.M).group(1)
        agree(f"check {k} {d}", f"accepted period {least} drops {drops}", program.say("check", k, d, "in.blif", "out.blif", "out.cert"))
    agree("rows are prime", True, all(rows_are_prime(rows) for _, rows in out.gates.values()))
    return without, least, least_back


def main():
    program, seed, number = Program(*sys.argv[1:3]), int(sys.argv[3]), int(sys.argv[4])
    forward = backward = failed = 0
    for turn in range(number):
        chance = random.Random(f"{seed} {turn}")
        k, d = 2 + turn % 2, turn // 2 % 3
        text = random_text(chance, k)
        try:
            without, least, least_back = compare(program, text, k, d, chance)
        except Disagreement as odd:
            failed += 1
            print(f"second_way: circuit {turn} of seed {seed}, K {k} and D {d}: {odd}\n{text}")
            continue
        forward += least < without
        backward += least_back < least
    print(f"second_way: {number - failed} of {number} circuits of seed {seed} agree; "
          f"lags forward pay in {forward} of them, lags backward in {backward}")
    return min(failed, 1)


if __name__ == "__main__":
    sys.exit(main())
