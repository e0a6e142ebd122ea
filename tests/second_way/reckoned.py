"""Circuits whose least periods are reckoned by hand, which the second way has to find."""

import sys

from second_way import least_period, read, simulate

TWO_LEVELS = """
.inputs a b c d
.outputs y
.latch a q1 0
.latch b q2 0
.latch c q3 1
.latch d q4 1
.latch g3 y 0
.names q1 q2 g1
11 1
.names q3 q4 g2
11 1
.names g1 g2 g3
1- 1
-1 1
"""
# The same without the latches before the first level, which registers could come to only backward.
BEFORE_ONE_LATCH = """
.inputs a b c d
.outputs y
.latch g3 y 0
.names a b g1
11 1
.names c d g2
11 1
.names g1 g2 g3
1- 1
-1 1
"""
# A gate reads two latches: one of a gate, so that its own register moves into the table, and one of an input.
REGISTER_INSIDE = """
.inputs a b d e f
.outputs y
.latch x q 1
.latch d c 0
.names a b x
11 1
.names q c g
10 1
01 1
.names g e f y
111 1
"""
# One register in a loop of three gates, each with an input: no move of registers makes it shorter.
LOOP = """
.inputs a b c
.outputs g3
.latch g3 q 0
.names q a g1
10 1
01 1
.names g1 b g2
10 1
01 1
.names g2 c g3
10 1
01 1
"""
# Two gates read one input, each through a latch of its own.
TWO_LATCHES_OF_ONE = """
.inputs a b c
.outputs y
.latch a q 0
.latch a r {}
.names q b g
10 1
01 1
.names r c h
10 1
01 1
.names g h y
11 1
"""
RING = ".outputs r\n.latch s r 0\n.latch r s 1\n"

# Text, K, D, B and the least period.
RECKONED = [
    (TWO_LEVELS, 2, 0, 0, 2), (TWO_LEVELS, 2, 1, 0, 1), (TWO_LEVELS, 3, 0, 0, 2), (TWO_LEVELS, 4, 0, 0, 1),
    (BEFORE_ONE_LATCH, 2, 0, 0, 2), (BEFORE_ONE_LATCH, 2, 2, 0, 2), (BEFORE_ONE_LATCH, 2, 0, 1, 1),
    (REGISTER_INSIDE, 3, 0, 0, 2), (REGISTER_INSIDE, 3, 1, 0, 1),
    (LOOP, 2, 0, 0, 3), (LOOP, 2, 2, 0, 3), (LOOP, 2, 2, 2, 3), (LOOP, 4, 0, 0, 1), (LOOP, 3, 0, 0, 2),
    (TWO_LATCHES_OF_ONE.format(0), 3, 0, 0, 1), (TWO_LATCHES_OF_ONE.format(1), 3, 0, 0, 2),
    (RING, 2, 0, 0, 0), (".inputs a\n.outputs a\n", 2, 2, 1, 0), (".outputs y\n.names y\n1\n", 2, 0, 0, 1),
]


def main():
    odd = [(text, *numbers, found) for text, *numbers in RECKONED if (found := least_period(read(text), *numbers[:3])) != numbers[3]]
    for text, k, d, b, period, found in odd:
        print(f"second_way: K {k}, D {d} and B {b}: reckoned {period}, found {found}\n{text}")
    rows = simulate(read(TWO_LEVELS), ["1100", "0000", "0011", "0000"])
    if rows != ["0", "1", "1", "0"]:
        print(f"second_way: wrong rows {rows}")
    return int(bool(odd) or rows != ["0", "1", "1", "0"])


if __name__ == "__main__":
    sys.exit(main())
