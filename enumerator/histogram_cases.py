"""Cases for `histogram`: a sheet and a record. A seed fully determines what is
given."""

import random

from histogram_check import drawn_histogram
from replay_cases import EIGHT, ONE, STEADY, THREE, UNTIL, chosen_cases as replay_chosen, lines

# A worked sheet: one line of the record holds -1 for a, two hold 0, none 1.
WORKED = b"a b\n-1 0\n1 1\na == 5"
# 1,031 values are the most that 1,024 letters allow.
WIDEST = b"a b c d e f g abcdefgh\n" + b"-1000000000 " * 7 + b"-512\n" + b"-1000000000 " * 7 + b"511"
NAMES = b"a b c d e f g abcdefgh"
# Ranges whose ends have ten digits, and a stream of one value.
FAR = b"low high one\n-1000000000 999999998 7\n-999999998 1000000000 7"
PLAIN = b"x\n0\n1"


def refused_sheets():
    """A sheet for each of 1 to 7, which come before the record's 13, and
    sheets that the compile refuses with 9 and 10, which are counted."""
    record = b"x\n0\n1\n1"
    return [(sheet, record) for sheet in (
        b"x\x00\n0\n1", b"x\n0\n1\n" + b"(" * 33, b"x\n0\n", b"", b"x x\n0 0\n1 1", b"x\n1\n0",
        b"x\n0\n1\nx * 1000000001 == 0", b"x\n0\n1000\nx * 1000001 == 0", b"x\n0\n1024",
        b"x\n0\n1\nnext x == x + 1", b"x\n0\n1023\nnext x == x", b"x\n0\n1\n1 until 0",
        b"x\n0\n1\nread", b"x\n0\n1\nread set")] + [(b"x\n0\n", b"y\n9"), (b"", b"")]


def chosen_cases():
    """What document 02 says, and what a reader could take it for."""
    cases = [(WORKED, record) for record in (
        lines(b"a b", b"0 1", b"0 0", b"-1 1"),
        # names only: every value with 0
        b"a b", b"a b\n",
        # the first line with a fault decides, 13 before 14 in one line
        lines(b"a b", b"0 1", b"2 0", b"x"), lines(b"a b", b"0 1", b"2 x", b"3 3"),
        lines(b"a b", b"0 1", b"x", b"2 0"), lines(b"a b", b"2 0", b""), lines(b"a b", b"", b"", b"2 0"),
        lines(b"a b", b"2 0"), lines(b"a b", b"0 2"), lines(b"a b", b"-2 0"), lines(b"a b", b"0 -1"),
        # a fault in the last line alone, with and without its byte 10
        b"a b\n" + b"0 1\n" * 9 + b"0 9", b"a b\n" + b"0 1\n" * 9 + b"0 9\n", b"a b\n0 1\n0",
        # one value in every line
        b"a b\n" + b"1 1\n" * 12)]
    cases += refused_sheets()
    # all letters of a sheet, one after the other, and the last one only
    cases += [(FAR, lines(b"low high one", *(b"%d %d 7" % (-1000000000 + i, 999999998 + j) for i in range(3) for j in range(3)))),
              (FAR, lines(b"low high one", b"-999999998 1000000000 7")), (FAR, lines(b"low high one", b"-999999997 1000000000 7")),
              (FAR, lines(b"low high one", b"-1000000000 999999998 8")), (FAR, b"high low one\n"),
              (WIDEST, lines(NAMES, *(b"-1000000000 " * 7 + b"%d" % value for value in (-512, 511, 0, 0, 511)))),
              (WIDEST, lines(NAMES, b"-1000000000 " * 7 + b"512")),
              (EIGHT, lines(NAMES, *(b" ".join(b"%d" % (number >> place & 1) for place in range(8)) for number in range(0, 256, 7)))),
              (THREE, lines(b"p q r", b"0 1 5", b"0 -1 6", b"0 1 6", b"0 0 5")), (STEADY, b"a\n" + b"-3\n4\n-3\n0\n"),
              (ONE, b"x\n" + b"0\n" * 120), (PLAIN, b"x\n0\n1\n0"), (PLAIN, b"x\n0\n01"), (PLAIN, b"x\n0\n4294967296"),
              (PLAIN, b"x\n0\n18446744073709551616\nx"), (PLAIN, b"x\n\n"), (PLAIN, b"x\n0\n\n"), (PLAIN, b"x\n0\n ")]
    # what `replay` refuses by 13 and 14, and what it plays
    return cases + [(sheet, record) for sheet, record, start in replay_chosen() if start is None]


def lawful_case(rng):
    """Lines in the ranges of a sheet; now and then one byte is another."""
    sheet, ends = rng.choice(((UNTIL, ((0, 1), (0, 1))), (STEADY, ((-3, 4),)), (THREE, ((0, 0), (-1, 1), (5, 6)))))
    count = rng.choice((3, 12, 40, 120))
    record = lines(sheet.split(b"\n")[0], *(b" ".join(b"%d" % rng.randint(*pair) for pair in ends) for _ in range(count)))
    if rng.random() < 0.3:
        place = rng.randrange(len(record))
        record = record[:place] + bytes([rng.randrange(256)]) + record[place + 1:]
    return sheet, record + rng.choice((b"", b"\n"))


def histogram_cases(seed, drawn, lawful):
    rng = random.Random(seed)
    return (chosen_cases() + [drawn_histogram(rng) for _ in range(drawn)]
            + [lawful_case(rng) for _ in range(lawful)])
