"""The hostile runs: words, texts, and what has to come of them. Those that take a size are run in two sizes."""

from texts import (MAPPED, MAPPED_SIGNALS, SIGNALS, SOURCE, all_read_all, chain, circle, fill, joined, ladder, long_names, numbered, ring,
                   tower, tower_in_loop, tower_of_outputs, tower_of_pairs, tower_of_tables, wide_gate)

# Three gates in a loop with one register, as K 2 and D 1 leave it, and its certificate.
LOOP = """.model loop
.inputs a b c
.outputs g3
.latch g3 q 0
.names a q g1
01 1
10 1
.names b g1 g2
01 1
10 1
.names c g2 g3
01 1
10 1
.end
"""
HEAD = "turbomap 2\nperiod 3\ntables 3\n"
TABLES = "table 4 0 0.0 3.0\ntable 5 0 1.0 4.0\ntable 6 0 2.0 5.0\n"
DROPS = "drops 5\ndrop 4 1 2 0\ndrop 5 1 2 0\ndrop 6 1 2 0\ndrop 5 0 1 0 10 11\ndrop 6 0 2 0 10 111\n"


class Case:
    """A name, the words of a run, its texts in parts by file name, its status, and its line: the beginning where it ends in `*`."""

    def __init__(self, name, words, files, status, line):
        self.name, self.words, self.files, self.status, self.line = name, words.split(), files, status, line


def mapped(name, text, line, words="map 2 0"):
    return Case(name, words + " in.blif out.blif out.cert", {"in.blif": text}, 0, line)


def nothing(name, text):
    return mapped(name, text, "period 0 tables 0 registers 0")


def refused(name, text, line, words="map 2 0"):
    return Case(name, words + " in.blif out.blif out.cert", {"in.blif": text}, 5, "in.blif: line " + line)


def shown(name, text, line):
    return Case("show of " + name, "show in.blif", {"in.blif": text}, 0, line)


def bound(name, text, line, words):
    return Case(f"{words} of {name}", words + " in.blif", {"in.blif": text}, 0, line)


# Words and lines.

def large_texts(size):
    """Texts of so many bytes that make no more than a gate."""
    yield nothing("empty lines", fill("\n", size))
    yield nothing("blanks", fill(" ", size))
    yield nothing("joins", fill("\\\n", size))
    yield nothing("skipped lines", fill(".attr a\\b\n", size))
    yield nothing("joins in a skipped line", fill("\\\nx", size, ".attr x"))
    yield nothing("one word in a skipped line", fill("a", size, ".attr "))
    yield nothing("one line of words", fill("\tk", size, ".clock k"))
    yield nothing("one line of words and joins", fill("\\\nk", size, ".clock \\\nk"))
    yield nothing("lines of a clock", fill(".clock k\n", size))
    yield nothing("lines without names", fill(".inputs\n.outputs\n", size))
    yield nothing("one line of long names", joined(".inputs", numbered(lambda i: f" {i:0>255}", size // 256 - 1)))
    yield mapped("rows of two pins", fill("1- 1\n", size, ".inputs a b\n.outputs y\n.names a b y\n"), "period 1 tables 1 registers 0")
    yield mapped("rows without pins", fill("1\n", size, ".outputs y\n.names y\n"), "period 1 tables 1 registers 0")
    yield refused("one word", fill("a", size), "1: LongName")
    yield refused("one word of a statement", fill("i", size, "."), "1: LongName")
    yield refused("one word of bytes past the alphabet", fill("\xff", size), "1: BadByte")
    yield refused("a bad byte at the end", fill("a a a\n", size, tail="\0", pad=" "), f"{(size - 1) // 6 + 1}: BadByte")
    yield refused("one row", fill("1", size, ".names a y\n"), "2: LongName")
    yield refused("one line of short words", fill(" a", size, ".inputs"), "1: RepeatedDriver")
    yield refused("one line of outputs", joined(".outputs", numbered(lambda i: f" {i:0>7x}", size // 8 - 2)), "1: Undriven")
    yield refused("one line of inputs", joined(".inputs", numbered(lambda i: f" {i:0>7x}", size // 8 - 2)), "0: TooManySignals")
    yield refused("one line of pins", fill(" a", size, ".names"), "1: TooManyPins")
    rows = size // 5 - 4
    yield refused("a mixed row at the end", joined(".names a b y\n", numbered(lambda i: "1- 1\n", rows), "-1 0\n"),
                  f"{rows + 2}: MixedRows")


def limits():
    """Limits on bytes, names and signals, and one past them."""
    names = lambda count: joined(".inputs", numbered(lambda i: f" {i}", count))
    yield nothing("a comment", fill("#", SOURCE))
    yield Case("a comment, one byte more", "map 2 0 in.blif out.blif out.cert", {"in.blif": fill("#", SOURCE + 1)}, 6, "in.blif: too long")
    yield nothing("a name of 255 bytes", [".inputs " + "n" * 255])
    yield refused("a name of 256 bytes", [".inputs " + "n" * 256], "1: LongName")
    yield shown("a name of 1,023 bytes", [".inputs " + "n" * 1023], "model top\ninputs 1 outputs 0 latches 0 gates 0\n*")
    yield Case("show of a name of 1,024 bytes", "show in.blif", {"in.blif": [".inputs " + "n" * 1024]}, 5, "in.blif: line 1: LongName")
    yield nothing("100,000 inputs", names(SIGNALS))
    yield refused("100,001 inputs", names(SIGNALS + 1), "0: TooManySignals")
    yield refused("a ring of 100,001 latches", ring(SIGNALS + 1), "0: TooManySignals")
    yield Case("show of a ring of 900,001 latches", "show in.blif", {"in.blif": ring(MAPPED_SIGNALS + 1)}, 5,
               "in.blif: line 0: TooManySignals")


# Latches and gates.

def latches(signals):
    """So many signals, nearly all of them latches."""
    number = signals - 1
    line = "period 0 tables 0 registers {}"
    yield mapped("latches in one chain", joined(f".inputs a\n.outputs l{number - 1}\n", chain(number, "a")), line.format(number))
    yield mapped("latches in one chain that all begin with 0",
                 joined(f".inputs a\n.outputs l{number - 1}\n", chain(number, "a", lambda i: 0)), line.format(number))
    yield mapped("latches in one chain, the last first", joined(".inputs a\n.outputs l0\n",
                 numbered(lambda i: f".latch {f'l{i + 1}' if i + 1 < number else 'a'} l{i} 0\n", number)), line.format(number))
    yield mapped("latches in one ring", ring(signals), line.format(signals))
    yield mapped("latches on one source", joined(".inputs a\n.outputs", numbered(lambda i: f" l{i}", number), "\n",
                 numbered(lambda i: f".latch a l{i} {i % 2}\n", number)), line.format(number))
    half = number // 2
    second = numbered(lambda i: f".latch {f'r{i - 1}' if i else 'a'} r{i} {i % 2}\n", half)
    yield mapped("latches in two equal chains", joined(f".inputs a\n.outputs l{half - 1} r{half - 1}\n", chain(half, "a"), second),
                 line.format(half + 1))
    yield mapped("equal latches on one gate", joined(".inputs a\n.outputs y\n.names a g\n1 1\n.names l0 l1 y\n11 1\n",
                 numbered(lambda i: f".latch g l{i} 0\n", number - 2)), "period 1 tables 2 registers 1")
    yield refused("a circle of gates", circle(signals), "0: Loop")
    yield mapped("gates on one input", joined(".inputs a\n.outputs", numbered(lambda i: f" g{i}", number), "\n",
                 numbered(lambda i: f".names a g{i}\n0 1\n", number)), f"period 1 tables {number} registers 0")


def long_named(gates):
    yield mapped("long names of one byte, with lags", long_names(gates), f"period 1 tables {gates} *", "map 2 8")


def shown_latches(signals):
    """So many signals of a text that may be a mapped one."""
    said = "model top\ninputs {} outputs 1 latches {} gates {}\nwidest {}\nperiod {}\nchain*"
    number = signals - 1
    yield shown("latches in one chain", joined(".inputs a\n.outputs l0\n", chain(number, "a")), said.format(1, number, 0, 0, 0))
    yield shown("latches in one ring", ring(signals), said.format(0, signals, 0, 0, 0))
    yield shown("a tower of gates", tower(number), said.format(1, 0, number, 1, number))
    steps = signals // 2 - 1
    yield shown("a ladder of gates", ladder(steps),
                f"model top\ninputs 2 outputs 2 latches 0 gates {2 * steps}\nwidest 2\nperiod {steps}\nchain*")


def wide_gates(rows):
    """A gate with as many pins as there may be and one more, with rows of one literal, of all and of none."""
    def single(pins):
        return lambda i: "-" * (i % pins) + "1" + "-" * (pins - 1 - i % pins)

    yield shown("a gate of 255 pins", wide_gate(rows, 255, single(255)),
                "model top\ninputs 255 outputs 1 latches 0 gates 1\nwidest 255\nperiod 1\nchain y\nslack y 0")
    yield refused("a gate of 256 pins, without rows", wide_gate(0, 256, single(256)), "3: TooManyPins")
    yield refused("a gate of 256 pins", wide_gate(rows, 256, single(256)), "4: LongName")
    yield Case("show of a gate of 256 pins", "show in.blif", {"in.blif": wide_gate(rows, 256, single(256))}, 5,
               "in.blif: line 3: TooManyPins")
    yield refused("a gate of 255 pins, with rows of as many literals", wide_gate(rows, 255, lambda i: "1" * 255), "0: TooManySignals")
    yield mapped("a gate of 255 pins, with rows without literals", wide_gate(rows, 255, lambda i: "-" * 255),
                 "period 1 tables 1 registers 0")


def wide_gate_mapped(rows):
    return mapped("a gate of 255 pins", wide_gate(rows, 255, lambda i: "-" * (i % 255) + "1" + "-" * (254 - i % 255)),
                  f"period {(rows - 1).bit_length()} *")


def settled():
    """Texts whose labels or tables may take longer than their bytes: towers cost their depth squared where each drop or each table goes
    down to the end."""
    yield wide_gate_mapped(60_000)
    yield mapped("a tower of 99,999 gates", tower(99_999), "period 1 tables 1 registers 0")
    yield mapped("a tower of 49,999 pairs", tower_of_pairs(49_999), "period 49999 tables 49999 registers 0")
    yield mapped("a ladder of 49,999 pairs", ladder(49_999), "period 1 tables 2 registers 0")
    yield mapped("a tower of 2,000 gates", tower(2000), "period 1 tables 1 registers 0", "map 2 8")
    yield mapped("a tower of 2,000 pairs", tower_of_pairs(2000), "period 2000 tables 2000 registers 0", "map 2 8")
    yield mapped("a tower of 2,000 outputs", tower_of_outputs(2000), "period 1 tables 2000 registers 0")
    yield mapped("90,000 gates that read all of 8 latches", all_read_all(8, 90_000), "period 1 *", "map 8 0")
    yield mapped("255 gates that read all of 255 latches", all_read_all(255, 255), "period 8 *")
    yield from deep_tables(2000)


def settled_longer():
    yield mapped("a tower of 8,000 pairs", tower_of_pairs(8000), "period 8000 tables 8000 registers 0", "map 2 8")
    yield mapped("a tower of 8,000 outputs", tower_of_outputs(8000), "period 1 tables 8000 registers 0")
    yield mapped("a tower of 400 gates in a loop", tower_in_loop(400, 9), "period *", "map 2 8")
    yield bound("a tower of 400 gates in a loop", tower_in_loop(400, 9), "bound period *", "bound 2 8 8")
    yield mapped("90,000 gates that read all of 8 latches", all_read_all(8, 90_000), "period 1 *", "map 8 8")
    yield mapped("64 gates that read all of 64 latches", all_read_all(64, 64), "period *", "map 8 8")
    yield mapped("long names of one byte, with lags", long_names(24_000), "period 1 tables 24000 *", "map 2 8")
    yield from deep_tables(8000)


# Vectors.

def simulated(name, text, rows, status, line):
    return Case("sim of " + name, "sim in.blif rows.txt out.txt", {"in.blif": text, "rows.txt": rows}, status, line)


def constants(outputs):
    """So many outputs, and no input."""
    return joined(".outputs", numbered(lambda i: f" {i}", outputs), "\n", numbered(lambda i: f".names {i}\n", outputs))


def vectors(size):
    """Texts of so many bytes for no, one and many inputs."""
    wide_rows = size // (SIGNALS + 1)
    many = joined(".inputs", numbered(lambda i: f" {i}", SIGNALS))
    yield simulated("rows of nothing", constants(0), fill("\n", size), 0, f"steps {size}")
    yield simulated("rows of one bit", [".inputs a\n.outputs a"], fill("1\n", size), 0, f"steps {size // 2}")
    yield simulated("rows of 100,000 bits", many, fill("01" * (SIGNALS // 2) + "\n", wide_rows * (SIGNALS + 1)), 0, f"steps {wide_rows}")
    yield simulated("one row", [".inputs a"], fill("1", size), 5, "rows.txt: line 1: Width")
    yield simulated("one row with a wrong byte at its end", [".inputs a"], fill("1", size, tail="2"), 5, "rows.txt: line 1: Byte")
    yield simulated("a wrong row at the end", [".inputs a"], fill("1\n", size, tail="11"), 5, f"rows.txt: line {size // 2}: Width")
    yield simulated("a row of CRs", constants(0), fill("\r", size), 5, "rows.txt: line 1: Byte")


def vectors_past_limits():
    yield simulated("rows, one byte more", constants(0), fill("\n", SOURCE + 1), 6, "rows.txt: too long")
    yield simulated("rows of 16 outputs, one step more", constants(16), fill("\n", MAPPED // 17 + 1), 6, "out.txt: too long")


# Certificates.

def checked(name, certificate, status, line):
    return Case("check of " + name, "check 2 1 in.blif out.blif out.cert", {"in.blif": [LOOP], "out.blif": [LOOP], "out.cert": certificate},
                status, line)


def faulty(name, certificate, line):
    return checked(name, certificate, 5, "out.cert: line " + line)


def unaccepted(name, certificate, line):
    return checked(name, certificate, 7, "not accepted: entry " + line)


def many_drops(drops):
    return joined(HEAD, TABLES, f"drops {drops}\n", numbered(lambda i: "drop 4 1 2 0\n", drops), "end\n")


def certificates(size):
    """Texts of so many bytes for a loop of three gates."""
    lines = size // 20
    yield faulty("one word", fill("a", size), "1: Ending")
    yield faulty("one word and its line end", fill("a", size, tail="\n"), "1: Version")
    yield faulty("empty lines", fill("\n", size), "1: Version")
    yield faulty("empty lines after the first", fill("\n", size, "turbomap 2\n"), "2: Word")
    yield faulty("a period of many digits", fill("1", size, "turbomap 2\nperiod ", "\n"), "2: Number")
    yield faulty("a table of blanks", fill(" ", size, HEAD + "table", "\n"), "4: Word")
    yield faulty("a walk with a wrong step at its end", fill("0", size, HEAD + TABLES + "drops 1\ndrop 4 1 2 ", "8\nend\n"), "8: Number")
    yield faulty("bytes after the end", fill("x", size, HEAD + TABLES + DROPS + "end\n"), "14: Ending")
    yield unaccepted("many leaves", fill(" 0.0", size, "turbomap 2\nperiod 3\ntables 1\ntable 4 0", "\ndrops 0\nend\n", ""), "1: Leaves")
    yield unaccepted("many tables", joined(f"turbomap 2\nperiod 3\ntables {lines}\n", numbered(lambda i: "table 4 0 0.0 3.0\n", lines),
                     "drops 0\nend\n"), "1: Unserved")
    yield unaccepted("tables of many gates", joined(f"turbomap 2\nperiod 3\ntables {lines + 3}\n", TABLES,
                     numbered(lambda i: f"table {i + 7} 0 0.0\n", lines), "drops 0\nend\n"), "4: Lag")
    yield unaccepted("one long walk", fill("0", size, HEAD + TABLES + "drops 1\ndrop 4 1 2 ", "\nend\n"), "1: Path")
    yield unaccepted("many walks", fill(" 1", size, HEAD + TABLES + "drops 1\ndrop 4 1 2", "\nend\n", ""), "1: TooFew")
    yield unaccepted("many drops", many_drops(lines), "2: Order")


def certificates_at_limits():
    most = 4_294_967_295
    yield checked("the certificate", [HEAD + TABLES + DROPS + "end\n"], 0, "accepted period 3 drops 5")
    yield unaccepted("the greatest period", [f"turbomap 2\nperiod {most}\ntables 3\n{TABLES}drops 0\nend\n"], "0: Unfinished")
    yield faulty("a greater period", [f"turbomap 2\nperiod {most + 1}\ntables 3\n{TABLES}drops 0\nend\n"], "2: Number")
    yield faulty("the greatest number of tables", [f"turbomap 2\nperiod 3\ntables {most}\n{TABLES}drops 0\nend\n"], "7: Word")
    yield faulty("a greater number of tables", [f"turbomap 2\nperiod 3\ntables {most + 1}\n{TABLES}drops 0\nend\n"], "3: Number")
    yield faulty("the greatest number of drops", [f"{HEAD}{TABLES}drops {2 ** 64 - 1}\nend\n"], "8: Word")
    yield faulty("a greater number of drops", [f"{HEAD}{TABLES}drops {2 ** 64}\nend\n"], "7: Number")
    yield unaccepted("the greatest lag", [HEAD + "table 4 255 0.255\n" * 3 + "drops 0\nend\n"], "1: Lag")
    yield faulty("a greater lag", [HEAD + "table 4 256 0.0\n" * 3 + "drops 0\nend\n"], "4: Number")
    yield unaccepted("the greatest signal", [HEAD + f"table 4 0 {most}.0\n" * 3 + "drops 0\nend\n"], "1: Leaves")
    yield unaccepted("the greatest gate", [HEAD + f"table {most} 0\n" * 3 + "drops 0\nend\n"], "1: Lag")


def deep_tables(gates):
    """Certificates of towers, in which each table reaches down to the input."""
    for latches in (0, 8):
        text, certificate = tower_of_tables(gates, latches)
        yield Case(f"check of tables down to the input at D {latches}", f"check 2 {latches} in.blif out.blif out.cert",
                   {"in.blif": text, "out.blif": [LOOP], "out.cert": certificate}, 7, "not accepted: entry 0: Circuit")


def longest():
    """Texts at the limits of what may be a mapped text or a certificate."""
    yield shown("the longest comment", fill("#", MAPPED), "model top\n*")
    yield Case("show of a comment, one byte more", "show in.blif", {"in.blif": fill("#", MAPPED + 1)}, 6, "in.blif: too long")
    yield unaccepted("as many drops as may be", many_drops(20_648_870), "2: Order")
    yield checked("a certificate, one byte more than may be", fill("\n", MAPPED + 1), 6, "out.cert: too long")
    yield simulated("rows of 15 outputs, as many bytes as may be", constants(15), fill("\n", SOURCE), 0, f"steps {SOURCE}")
    yield simulated("rows of 16 outputs, one step less than may be", constants(16), fill("\n", MAPPED // 17), 0, f"steps {MAPPED // 17}")
    yield simulated("rows of 16 outputs, too many bytes", constants(16), fill("\n", SOURCE), 6, "out.txt: too long")
