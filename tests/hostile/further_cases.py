"""Hostile texts of further kinds: several models, and ASCII AIGER."""

from cases import mapped, nothing, refused
from texts import SIGNALS, SOURCE, fill, joined, numbered

ONE_TABLE = "period 1 tables 1 registers 0"


# Several models.

def models(size):
    """Texts of so many bytes with many models, instances or bindings."""
    chained = size // 32
    yield nothing("lines of .subckt", fill(".subckt m\n", size, tail=".model m\n"))
    yield refused("lines of .subckt without their model", fill(".subckt m\n", size), "1: NoModel")
    yield refused("one line of bindings", fill(" a=b", size, ".subckt m", "\n.model m\n.inputs a\n"), "1: RepeatedFormal")
    yield refused("one line of unknown bindings", fill(" a=b", size, ".subckt m", "\n.model m\n"), "1: UnknownFormal")
    yield refused("one line of bindings without =", fill(" a", size, ".subckt m"), "1: BadBinding")
    yield refused("one binding", fill("=", size, ".subckt m a", "\n.model m\n"), "1: LongName")
    yield refused("models one in the other", joined(numbered(lambda i: f".model {i:0>7}\n.subckt {i + 1:0>7}\n", chained),
                  f".model {chained:0>7}\n"), "0: TooDeep")
    yield refused("models in a circle", numbered(lambda i: f".model {i:0>7}\n.subckt {(i + 1) % chained:0>7}\n", chained), "0: Recursion")
    yield nothing("models that are not placed", joined(".model top\n", numbered(lambda i: f".model {i:0>8}\n", size // 16 - 1)))
    yield refused("one model again and again", fill(".model m\n", size), "2: RepeatedModel")
    yield refused("models with one input each", joined(numbered(lambda i: ".subckt m x=a\n", size // 16), ".inputs a\n.model m\n.inputs x\n"
                  ".outputs y\n.latch x y 0\n"), "0: TooManySignals")
    yield from models_with_many_inputs(size // 24)
    yield from models_too_large(size)
    pins = " x" * 255
    yield mapped("pins that are bound through 64 models", nested(numbered(lambda i: f".names{pins} g{i}\n", size // 530)), ONE_TABLE)


def models_with_many_inputs(inputs):
    """An instance with so many inputs, and one with an input that isn't bound."""
    def text(formals):
        return joined(".inputs a\n.subckt m", numbered(lambda i: f" x{i:0>7}=a", inputs), "\n.model m\n.inputs",
                      numbered(lambda i: f" x{i:0>7}", formals), "\n")

    yield nothing("an instance of many inputs", text(inputs))
    yield refused("an instance of which an input isn't bound", text(inputs + 1), "2: Unbound")


def models_too_large(size):
    """Texts of so many bytes, of which the flat unit would be larger by far."""
    yield refused("instances with a long joiner", joined(f".names {'@' * 254}\n", fill(".subckt m\n", size - 300), ".model m\n.names a\n"),
                  "0: TooLarge")
    yield refused("instances with many rows", joined(fill(".subckt m\n", size // 2), fill("1- 1\n", size // 2, ".model m\n.names a b y\n")),
                  "0: TooLarge")


def nested(statements):
    """An inverter, with more statements, in the innermost of 64 models."""
    inner = numbered(lambda i: f".model m{i}\n.inputs x\n.outputs y\n.subckt m{i + 1} x=x y=y\n", 63, 1)
    return joined(".model m0\n.inputs a\n.outputs y\n.subckt m1 x=a y=y\n", inner, ".model m64\n.inputs x\n.outputs y\n.names x y\n0 1\n",
                  statements)


def models_at_limits():
    def placed(depth, times):
        return joined(numbered(lambda i: f".model m{i}\n" + f".subckt m{i + 1}\n" * times, depth), f".model m{depth}\n")

    # With its own name the unit comes to 67,108,864 names' bytes and instances.
    most = joined(".model t\n", ".subckt m\n" * 8191, ".subckt e\n" * 8191, ".model m\n", ".subckt e\n" * 8191, ".model e\n")
    more = joined(".model t\n", ".subckt m\n" * 8191, ".subckt e\n" * 8192, ".model m\n", ".subckt e\n" * 8191, ".model e\n")
    yield nothing("64 models one in the other", placed(64, 1))
    yield mapped("a gate in the innermost of 64 models", nested(""), ONE_TABLE)
    yield refused("65 models one in the other", placed(65, 1), "0: TooDeep")
    yield refused("64 models, each placed twice in the other", placed(64, 2), "0: TooLarge")
    yield refused("65 models, each placed twice in the other", placed(65, 2), "0: TooDeep")
    yield nothing("a unit as large as may be", most)
    yield refused("a unit larger by one", more, "0: TooLarge")
    yield from names_at_limits()


def names_at_limits():
    """Names of 255 bytes and of 256: in bindings, in instances, and by the joiner."""
    sides = f".subckt m {'x' * 255}={'a' * 255}\n.inputs {'a' * 255}\n.model m\n.inputs {'x' * 255}\n"
    yield nothing("a binding of two names of 255 bytes", [sides])
    yield refused("a binding with a name of 256 bytes", [sides.replace("=", "=a")], "1: LongName")
    inside = f".subckt m\n.model m\n.names {'n' * 253}\n"
    yield nothing("a name of 255 bytes with its instance", [inside])
    yield refused("a name of 256 bytes with its instance", [inside.replace("nn", "nnn", 1)], "3: LongName")
    signs = f".names {'@' * 252}\n.subckt m\n.model m\n.names a\n"
    yield nothing("a name of 255 bytes with its joiner", [signs])
    yield refused("a name of 256 bytes with its joiner", [signs.replace("@", "@@", 1)], "4: LongName")


# AIGER.

def aiger(name, text, line):
    return mapped("AIGER: " + name, text, line)


def aiger_refused(name, text, line):
    return refused("AIGER: " + name, text, line)


def aiger_texts(size):
    """Texts of so many bytes."""
    none = "period 0 tables 0 registers 0"
    yield aiger_refused("one word", fill("a", size, "aag "), "1: BadHeader")
    yield aiger_refused("a number of many digits", fill("1", size, "aag ", " 0 0 0 0\n"), "1: BadHeader")
    yield aiger_refused("a line of blanks", fill(" ", size, "aag "), "1: BadHeader")
    yield aiger("empty lines", fill("\n", size, "aag 0 0 0 0 0\n"), none)
    yield aiger("a long comment", fill("x", size, "aag 0 0 0 0 0\nc\n"), none)
    yield aiger("a comment of lines", fill("\n", size, "aag 0 0 0 0 0\nc\n"), none)
    yield aiger("a long symbol", fill("x", size, "aag 1 1 0 0 0\n2\ni0 ", "\n"), none)
    yield aiger("a long symbol of joiners", fill("%", size, "aag 1 1 0 0 0\n2\ni0 ", "\n"), none)
    yield aiger_refused("one symbol again and again", fill("i0 x\n", size, "aag 1 1 0 0 0\n2\n"), "4: BadSymbol")
    yield aiger_refused("a line that is due", fill("2 ", size, "aag 1 1 0 0 0\n", "\n"), "2: BadLine")
    yield from aiger_lines(size // 20)


def aiger_lines(count):
    """Texts of so many lines of one kind."""
    outputs, gates = numbered(lambda i: "2\n", count), numbered(lambda i: f"{2 * i + 4} 2 2\n", count)
    yield aiger_refused("many outputs", joined(f"aag 1 1 0 {count} 0\n2\n", outputs), "0: TooManySignals")
    yield aiger_refused("many gates", joined(f"aag {count + 1} 1 0 0 {count}\n2\n", gates), "0: TooManySignals")
    same = numbered(lambda i: "4 2 2\n", count)
    yield aiger_refused("one gate again and again", joined(f"aag {count + 1} 1 0 0 {count}\n2\n", same), "4: Repeated")


def aiger_circuits(signals):
    """Texts of so many signals."""
    number = signals - 2
    after = numbered(lambda i: f"{2 * i + 4} {2 * i + 2}\n", number)
    yield aiger("latches in one chain", joined(f"aag {number + 1} 1 {number} 1 0\n2\n", after, f"{2 * number + 2}\n"),
                f"period 1 tables 1 registers {number}")
    around = numbered(lambda i: f"{2 * i + 2} {2 * (i or number)}\n", number)
    yield aiger("latches in one ring", joined(f"aag {number} 0 {number} 1 0\n", around, "2\n"), f"period 1 tables 1 registers {number}")
    beside = numbered(lambda i: f"{2 * i + 4} 2 {i % 2}\n", number)
    yield aiger("latches on one source", joined(f"aag {number + 1} 1 {number} 1 0\n2\n", beside, "4\n"), "period 1 tables 1 registers 1")
    circle = numbered(lambda i: f"{2 * i + 2} {2 * (i or number)} 1\n", number)
    yield aiger_refused("a circle of gates", joined(f"aag {number} 0 0 0 {number}\n", circle), "0: Loop")
    inputs = number // 2
    for width in (255, 256):
        literals = numbered(lambda i: f"{2 * i + 2}\n", inputs)
        symbols = numbered(lambda i, width=width: f"i{i} {i:0>{width}}\n", inputs)
        yield aiger(f"symbols of {width} bytes", joined(f"aag {inputs} {inputs} 0 0 0\n", literals, symbols),
                    "period 0 tables 0 registers 0")


def aiger_tower(gates, *, backward):
    order = reversed(range(gates)) if backward else range(gates)
    return joined(f"aag {gates + 1} 1 0 1 {gates}\n2\n{2 * gates + 2}\n", "".join(f"{2 * i + 4} {2 * i + 2} {2 * i + 2}\n" for i in order))


def aiger_settled():
    """Towers of gates, in either order of their lines."""
    for backward in (False, True):
        yield aiger("a tower of gates" + " from its top" * backward, aiger_tower(SIGNALS - 2, backward=backward),
                    "period 1 tables 1 registers 0")
    yield aiger_refused("a tower of one gate more", aiger_tower(SIGNALS - 1, backward=False), "0: TooManySignals")


def aiger_at_limits():
    none = "period 0 tables 0 registers 0"
    yield aiger("the most variables", ["aag 2147483646 0 0 0 0\n"], none)
    yield aiger_refused("one variable more", ["aag 2147483647 0 0 0 0\n"], "1: BadHeader")
    yield aiger_refused("the most inputs", ["aag 2147483646 2147483646 0 0 0\n"], "2: Ending")
    yield aiger_refused("one input more", ["aag 2147483646 2147483646 1 0 0\n"], "1: BadHeader")
    yield aiger_refused("the most outputs", ["aag 0 0 0 4294967295 0\n0\n"], "3: Ending")
    yield aiger_refused("one output more", ["aag 0 0 0 4294967296 0\n0\n"], "1: BadHeader")
    yield aiger_refused("a literal past the last", ["aag 1 1 0 1 0\n2\n4\n"], "3: BadLiteral")
    yield aiger("symbols with runs of 16 and 17 %", [f"aag 2 2 0 0 0\n2\n4\ni0 {'%' * 16}\ni1 {'%' * 17}\n"], none)
    yield nothing("AIGER: a text of all bytes that may be", fill("x", SOURCE, "aag 0 0 0 0 0\nc\n"))
