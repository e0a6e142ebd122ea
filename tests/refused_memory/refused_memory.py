"""Each allocation of each command refused in turn, on small inputs: the run ends with status 1 and says `no memory` alone, and the
files are as they were; or nothing came of it, and all is as without it. Where there is no memory for the words themselves, nothing is
said."""

import os
import subprocess
import sys

SOURCE = """.model two
.inputs a b c clk
.outputs y z
.latch d q re clk 1
.latch e r re clk 1
.latch e s re clk 1
.names a b c d
11- 1
--1 1
.names q c e
10 1
01 1
.names r s a b c y
11111 0
.names s q z
1- 1
-1 1
.end
"""

MODELS = """.model top
.inputs a b
.outputs y
.subckt half x=a z=m
.subckt half x=b z=n
.names m n y
11 1
.end
.model half
.inputs x
.outputs z
.latch x q 1
.names q z
0 1
.end
"""

AIGER = "aag 3 2 0 1 1\n2\n4\n7\n6 3 5\ni0 x\no0 z\n"

VECTORS = "101\n010\n111\n"

# The words of each form, and the files before the run.
FORMS = [
    ("map 4 1 in out", {"in": SOURCE}),
    ("map 4 1 in out cert", {"in": SOURCE, "out": "before\n", "cert": "before\n"}),
    ("map 2 0 in out", {"in": MODELS}),
    ("prime 4 1 in out", {"in": SOURCE}),
    ("prime 2 0 in out cert", {"in": AIGER}),
    ("check 4 1 in out cert", {"in": SOURCE, "out": None, "cert": None}),
    ("sim in vectors out", {"in": SOURCE, "vectors": VECTORS}),
    ("show in", {"in": SOURCE}),
    ("bound 3 1 1 in", {"in": SOURCE}),
    ("large 8 4 1", {}),
    ("show in", {"in": ".model m\n.names a b\n"}),
    ("map 2 0", {}),
]


class Machine:
    """Runs the program in a folder, with an allocation refused where its number is given."""

    def __init__(self, program, library, folder):
        self.program = program
        self.library = library
        self.folder = folder
        self.count = os.path.join(folder, "count")

    def run(self, words, files, refused):
        """The status, what was said, and the files afterwards."""
        here = os.path.join(self.folder, "run")
        os.makedirs(here, exist_ok=True)
        for name in os.listdir(here):
            os.remove(os.path.join(here, name))
        for name, text in files.items():
            with open(os.path.join(here, name), "w", encoding="ascii") as file:
                file.write(text)
        environment = {"LD_PRELOAD": self.library, "REFUSE_AT": str(refused), "REFUSE_COUNT": self.count}
        done = subprocess.run([self.program, *words.split()], cwd=here, env=environment, capture_output=True, timeout=60, check=False)
        after = {}
        for name in os.listdir(here):
            with open(os.path.join(here, name), encoding="ascii") as file:
                after[name] = file.read()
        return done.returncode, done.stdout.decode(), after

    def allocations(self):
        with open(self.count, encoding="ascii") as file:
            return int(file.read())


def prepared(machine, files):
    """The files, with a mapped text and its certificate made where they are asked for."""
    if None not in files.values():
        return files
    _, _, after = machine.run("map 4 1 in out cert", {"in": files["in"]}, 0)
    return after


def faults(machine, words, files):
    """What is wrong where an allocation of a command is refused, and the number of its allocations."""
    files = prepared(machine, files)
    whole = machine.run(words, files, 0)
    number = machine.allocations()
    refused = (1, "no memory\n", files)
    without_words = (1, "", files)
    begun = False
    wrong = []
    for at in range(1, number + 1):
        got = machine.run(words, files, at)
        begun = begun or got != without_words
        if begun and got not in (refused, whole):
            wrong.append(f"{words}: allocation {at} of {number}: status {got[0]}, said {got[1]!r}, files {sorted(got[2])}")
    return wrong, number


def main(program, library, folder):
    machine = Machine(program, library, folder)
    runs = 0
    wrong = []
    for words, files in FORMS:
        found, number = faults(machine, words, files)
        wrong += found
        runs += number
        if number == 0 and words != "map 2 0":
            wrong.append(f"{words}: no allocation was seen")
    for line in wrong[:20]:
        print(f"refused_memory: {line}")
    print(f"refused_memory: {runs} allocations refused one by one in {len(FORMS)} commands, {len(wrong)} failed")
    return 1 if wrong else 0


if __name__ == "__main__":
    sys.exit(main(*sys.argv[1:]))
