#!/usr/bin/env python3
"""Times `map` and `check` on sample texts, on a large random circuit, on designs of several kinds beside ABC's mapper, and on loops.

Run by hand, outside the gate, after the launcher has built the program:
    python3 bench/map.py [RUNS]
Each figure is the least processor time of RUNS runs (5 unless given). Samples are timed as ratios to `show` on the same text; the
designs of bench/designs, which Yosys makes into gates, as ratios to ABC's `strash; if -K` on the text that ABC writes of them, so
that both map the same gates; their tables stand beside ABC's, and beside those of an earlier program where BEFORE names one. Without
Yosys or ABC the designs are left out. `check` is timed as a ratio to `map` with the certificate on the same files. The certificate of
a loop is large: `check` of it is timed as a ratio to `wc -w` on it.
"""

import glob
import math
import os
import re
import shutil
import subprocess
import tempfile

from first_path import random_circuit
from timing import PROGRAM, TOP, measured, processor_seconds, runs_wanted, seconds

SIZES = [1_000, 2_000, 5_000, 10_000, 20_000]
SETTINGS = [(4, 0), (4, 2), (4, 8), (6, 0), (6, 2), (6, 8)]
DESIGN_SETTINGS = [(4, 0), (4, 8), (6, 0), (6, 8)]
LOOPS = [100, 200, 400]
SYNTHESIS = (
    "read_verilog {source}; synth -flatten -top {top}; dfflegalize -cell $_DFF_P_ 01; abc -g simple; "
    "setundef -zero -undriven; opt_clean -purge; rename -enumerate; write_blif {text}"
)


def sample(gates):
    """The sample text: pins are drawn by a fixed sequence among eight inputs, a quarter as many latches, and the gates before."""
    latches = gates // 4
    drawn = gates
    lines = [".model sample", ".inputs i0 i1 i2 i3 i4 i5 i6 i7"]
    lines.append(".outputs " + " ".join(f"g{k}" for k in range(gates - 8, gates)))
    lines += [f".latch g{4 * k + 3} l{k} {k % 2}" for k in range(latches)]
    rows = ["11 1", "1- 1\n-1 1", "10 1\n01 1"]
    for gate in range(gates):
        draws = []
        for _ in range(3):
            drawn = (75 * drawn + 74) % 65537
            draws.append(drawn)
        pins = [choice(draw % (8 + latches + gate), latches) for draw in draws[:2]]
        lines.append(f".names {pins[0]} {pins[1]} g{gate}\n{rows[draws[2] % 3]}")
    return "\n".join(lines + [".end", ""])


def choice(number, latches):
    """The signal that a number stands for: an input, a latch or a gate."""
    if number < 8:
        return f"i{number}"
    return f"l{number - 8}" if number < 8 + latches else f"g{number - 8 - latches}"


def whole_commands(folder, runs):
    """`large` as a ratio to `map` and `check` on its text, and `bound` as ratios to `map`."""
    text, out, certificate = (os.path.join(folder, name) for name in ("sample.blif", "out.blif", "certificate"))
    with open(text, "w") as file:
        file.write(sample(SIZES[-1]))
    size = str(SIZES[-1])
    parts = seconds(["map", "6", "8", text, out, certificate], runs) + seconds(["check", "6", "8", text, out, certificate], runs)
    print(f"large {size} 6 8: {seconds(['large', size, '6', '8'], runs) / parts:.2f} of map and check on its text")
    mapping = seconds(["map", "4", "2", text, out], runs)
    for back in ("0", "2", "8"):
        print(f"bound 4 2 {back}: {seconds(['bound', '4', '2', back, text], runs) / mapping:.2f} of map 4 2")
    print()


def looped(gates):
    """A loop of gates with one register, each with an input of its own that comes through nine registers."""
    lines = [".model loop", ".inputs " + " ".join(f"i{k}" for k in range(gates)), f".outputs g{gates - 1}"]
    for gate in range(gates):
        lines += [f".latch {f's{gate}_{step - 1}' if step else f'i{gate}'} s{gate}_{step} 0" for step in range(9)]
    lines.append(f".latch g{gates - 1} l 0")
    for gate in range(gates):
        before = f"g{gate - 1}" if gate else "l"
        lines += [f".names {before} s{gate}_8 g{gate}", "11 1"]
    return "\n".join(lines + [".end", ""])


def table(heads, rows):
    print("| " + " | ".join(heads) + " |")
    print("|---|" + "---|" * (len(heads) - 1))
    for row in rows:
        print("| " + " | ".join(row) + " |")
    print()


def samples(folder, runs):
    """`map` as a ratio to `show`, and the exponent of its growth from the smallest to the largest sample."""
    texts = []
    for size in SIZES:
        text = os.path.join(folder, f"sample-{size}.blif")
        with open(text, "w") as file:
            file.write(sample(size))
        texts.append(text)
    shown = [seconds(["show", text], runs) for text in texts]
    rows = []
    for k, d in SETTINGS:
        took = [seconds(["map", str(k), str(d), text, os.path.join(folder, "out.blif")], runs) for text in texts]
        exponent = math.log(took[-1] / took[0]) / math.log(SIZES[-1] / SIZES[0])
        rows.append([str(k), str(d), *(f"{a / b:.1f}" for a, b in zip(took, shown)), f"{exponent:.2f}"])
    table(["K", "D", *(f"{size:,}" for size in SIZES), "exponent"], rows)
    certificates([(f"sample of {size:,}", text, SETTINGS) for size, text in zip(SIZES, texts)], folder, runs)


def certificates(texts, folder, runs):
    """`check` as a ratio to `map` with the certificate on the same files, and what the certificate comes to."""
    out, certificate = os.path.join(folder, "out.blif"), os.path.join(folder, "certificate")
    rows = []
    for name, text, settings in texts:
        for k, d in settings:
            numbers = [str(k), str(d)]
            mapping = seconds(["map", *numbers, text, out, certificate], runs)
            checking = seconds(["check", *numbers, text, out, certificate], runs)
            line, _, _ = measured([PROGRAM, "check", *numbers, text, out, certificate])
            drops = re.search(r"drops (\d+)", line)[1]
            rows.append([name, *numbers, drops, f"{os.path.getsize(certificate):,}", f"{checking / mapping:.2f}"])
    table(["text", "K", "D", "drops", "bytes", "`check` as a ratio to `map`"], rows)


def loops(folder):
    """Certificates of loops, which are the largest: `check` beside `wc -w`, and its memory beside their bytes."""
    rows = []
    for gates in LOOPS:
        text, out, certificate = (os.path.join(folder, f"loop-{gates}.{end}") for end in ("blif", "out.blif", "certificate"))
        with open(text, "w") as file:
            file.write(looped(gates))
        line, mapping, _ = measured([PROGRAM, "map", "4", "8", text, out, certificate])
        _, checking, memory = measured([PROGRAM, "check", "4", "8", text, out, certificate])
        _, counting, _ = measured(["env", "LC_ALL=C", "wc", "-w", certificate])
        size = os.path.getsize(certificate)
        drops = re.search(r"drops (\d+)", measured([PROGRAM, "check", "4", "8", text, out, certificate])[0])[1]
        rows.append([str(gates), line, drops, f"{size:,}", f"{checking / mapping:.2f}", f"{checking / counting:.1f}", f"{memory / size:.1f}"])
    table(["loop of", "said", "drops", "bytes", "`check` to `map`", "`check` to `wc -w`", "memory to bytes"], rows)


def large(folder):
    """One run over 100,000 signals, with its greatest memory."""
    text = os.path.join(folder, "large.blif")
    with open(text, "w") as file:
        file.write(random_circuit(100_000))
    line, took, memory = measured([PROGRAM, "map", "6", "2", text, os.path.join(folder, "out.blif")])
    print(f"100,000 signals, K 6, D 2: {took:.1f} s, {memory // 1_000_000} MB, {line}\n")


def abc_seconds(abc, script, runs):
    best, told = float("inf"), ""
    for _ in range(runs):
        begin = processor_seconds()
        told = subprocess.run([abc, "-c", script], check=True, stdout=subprocess.PIPE, stderr=subprocess.STDOUT, text=True).stdout
        best = min(best, processor_seconds() - begin)
    return best, told


def design_texts(folder):
    """The designs as texts of gates, each with its name, and ABC; none without Yosys or ABC."""
    yosys, abc = shutil.which("yosys"), shutil.which("berkeley-abc") or shutil.which("yosys-abc")
    if not yosys or not abc:
        print("designs: skipped, they want yosys and berkeley-abc")
        return [], abc
    texts = []
    for source in sorted(glob.glob(os.path.join(TOP, "bench", "designs", "*.v"))):
        top = os.path.splitext(os.path.basename(source))[0]
        gates, text = (os.path.join(folder, f"{top}{end}") for end in (".gates.blif", ".blif"))
        subprocess.run([yosys, "-q", "-p", SYNTHESIS.format(source=source, top=top, text=gates)], check=True)
        subprocess.run([abc, "-c", f"read_blif {gates}; strash; write_blif {text}"], check=True, stdout=subprocess.DEVNULL)
        texts.append((top, text))
    return texts, abc


def designs(folder, runs):
    """Each design at several settings beside ABC: the ratio of times, and the periods."""
    texts, abc = design_texts(folder)
    rows, out = [], os.path.join(folder, "out.blif")
    for top, text in texts:
        for k, d in DESIGN_SETTINGS:
            line, _, _ = measured([PROGRAM, "map", str(k), str(d), text, out])
            took = seconds(["map", str(k), str(d), text, out], runs)
            theirs, told = abc_seconds(abc, f"read_blif {text}; strash; if -K {k}; print_stats; write_blif {out}", runs)
            depth = re.search(r"lev\s*=\s*(\d+)", told)
            rows.append([top, str(k), str(d), line, depth[1] if depth else "?", f"{took / theirs:.2f}"])
    if rows:
        table(["design", "K", "D", "said", "ABC's levels at D 0", "time as a ratio to ABC's"], rows)
    certificates([(top, text, DESIGN_SETTINGS) for top, text in texts], folder, runs)


def least(program, words, runs):
    """The line that a program says, and its least processor time of some runs."""
    told = [measured([program, *words]) for _ in range(runs)]
    return told[0][0], min(took for _, took, _ in told)


def tables(folder, runs):
    """The tables of each design beside those of ABC's `if` at D 0 on the same text, and beside those of the program BEFORE, if named."""
    texts, abc = design_texts(folder)
    before, rows, out = os.environ.get("BEFORE"), [], os.path.join(folder, "out.blif")
    for top, text in texts:
        for k, d in SETTINGS:
            words = ["map", str(k), str(d), text, out]
            now, took = least(PROGRAM, words, runs)
            past, had_taken = least(before, words, runs) if before else ("", 0)
            _, told = abc_seconds(abc, f"read_blif {text}; strash; if -K {k}; print_stats", 1)
            theirs, ours = re.search(r"nd\s*=\s*(\d+)", told)[1], re.search(r"tables (\d+)", now)[1]
            ratio = f"{int(ours) / int(theirs):.2f}" if d == 0 else ""
            slower = f"{took / had_taken:.2f}" if had_taken else "?"
            had = re.search(r"tables (\d+)", past)[1] if past else "?"
            rows.append([top, str(k), str(d), had, ours, theirs if d == 0 else "", ratio, slower])
    if rows:
        table(["design", "K", "D", "tables before", "tables", "ABC's `if`", "ratio", "time as a ratio to before"], rows)


def main():
    runs = runs_wanted()
    with tempfile.TemporaryDirectory() as folder:
        samples(folder, runs)
        whole_commands(folder, runs)
        large(folder)
        designs(folder, runs)
        tables(folder, runs)
        loops(folder)


if __name__ == "__main__":
    main()
