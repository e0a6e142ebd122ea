"""Parts of large texts, and circuits that are hard in some way."""

SOURCE = 16_777_216
MAPPED = 268_435_456
SIGNALS = 100_000
MAPPED_SIGNALS = 900_000


def fill(unit, size, head="", tail="", pad="\n"):
    """Just so many bytes, in parts: a head, as many units as there is room for, what is wanting, and a tail."""
    count, rest = divmod(size - len(head) - len(tail), len(unit))
    block = 1 + 65_536 // len(unit)
    yield head
    for _ in range(count // block):
        yield unit * block
    yield unit * (count % block) + pad * rest + tail


def numbered(form, count, first=0):
    """A form with each number in turn, in parts."""
    for start in range(first, first + count, 4096):
        yield "".join(map(form, range(start, min(start + 4096, first + count))))


def joined(*parts):
    """Texts and lists of parts, one after the other."""
    for part in parts:
        yield from [part] if isinstance(part, str) else part


def chain(latches, first, initial=lambda i: i % 2):
    """Latches l0, l1 and so on, each reading the one before, and the first another signal."""
    return numbered(lambda i: f".latch {f'l{i - 1}' if i else first} l{i} {initial(i)}\n", latches)


def ring(latches):
    return joined(".outputs l0\n", chain(latches, f"l{latches - 1}"))


def tower(gates):
    """Inverters one on the other."""
    return joined(f".inputs a\n.outputs g{gates - 1}\n", numbered(lambda i: f".names {f'g{i - 1}' if i else 'a'} g{i}\n0 1\n", gates))


def tower_of_outputs(gates):
    """Inverters one on the other, all of them outputs."""
    outputs = numbered(lambda i: f" g{i}", gates)
    return joined(".inputs a\n.outputs", outputs, "\n", numbered(lambda i: f".names {f'g{i - 1}' if i else 'a'} g{i}\n0 1\n", gates))


def tower_of_pairs(gates):
    """Gates one on the other, each with an input of its own."""
    return joined(".inputs a", numbered(lambda i: f" x{i}", gates), f"\n.outputs g{gates - 1}\n",
                  numbered(lambda i: f".names {f'g{i - 1}' if i else 'a'} x{i} g{i}\n11 1\n", gates))


def tower_in_loop(gates, latches):
    """Gates one on the other in a loop with so many latches and no input; each reads one of the latches, too."""
    return joined(f".outputs g{gates - 1}\n", chain(latches, f"g{gates - 1}"),
                  numbered(lambda i: f".names {f'g{i - 1}' if i else f'l{latches - 1}'} l{i % latches} g{i}\n11 0\n", gates))


def ladder(steps):
    """Pairs of gates that both read the pair before: chains are twice as many with each step."""
    return joined(f".inputs x0 y0\n.outputs x{steps} y{steps}\n", numbered(
        lambda i: f".names x{i} y{i} x{i + 1}\n11 1\n.names x{i} y{i} y{i + 1}\n00 0\n", steps))


def tower_of_tables(gates, latches):
    """Inverters one on the other over latches, and a certificate in which each has a table down to the input, by just so many lags."""
    lowest = f"l{latches - 1}" if latches else "a"
    inverters = numbered(lambda i: f".names {f'g{i - 1}' if i else lowest} g{i}\n0 1\n", gates)
    tables = numbered(lambda i: f"table {1 + latches + i} {latches} 0.0\n", gates)
    return joined(f".inputs a\n.outputs g{gates - 1}\n", chain(latches, "a"), inverters), \
        joined(f"turbomap 2\nperiod 1\ntables {gates}\n", tables, "drops 0\nend\n")


def long_names(gates):
    """Gates behind eight latches, all of them outputs; their names are as long as may be, and nearly all of them of one byte."""
    names = [f"{i:+>255}" for i in range(gates)]
    inverters = (f".names l7 {name}\n0 1\n" for name in names)
    return joined(".inputs a\n.outputs", (" " + name for name in names), "\n", chain(8, "a"), inverters)


def circle(gates):
    """Gates that read one another in a circle without a latch."""
    return numbered(lambda i: f".names g{(i + 1) % gates} g{i}\n1 1\n", gates)


def wide_gate(rows, pins, row):
    names = "".join(f" x{i}" for i in range(pins))
    return joined(f".inputs{names}\n.outputs y\n.names{names} y\n", numbered(lambda i: row(i) + " 1\n", rows))


def all_read_all(latches, gates):
    """Gates that each read all latches, which read the first of them; all of them are outputs."""
    pins = " ".join(f"l{i}" for i in range(latches))
    return joined(".outputs", numbered(lambda i: f" g{i}", gates), "\n", numbered(lambda i: f".latch g{i} l{i} {i % 2}\n", latches),
                  numbered(lambda i: f".names {pins} g{i}\n{'1' * (i % latches)}{'0' * (latches - i % latches)} 1\n", gates))
