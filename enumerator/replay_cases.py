"""Cases for `replay`: a sheet, a record, and the text of a start or None. A
seed fully determines what is given."""

import random

from replay_check import drawn_case

# "x until y" has two states: 0 before y, 1 from then on.
UNTIL = b"x y\n0 0\n1 1\nx until y"
KINDS = b"x y\n0 0\n1 1\nread set\nx until y"
# Halved, rounded down, until it stays (document 02, S-11).
HALVED = b"release 2\nlevel\n-5\n5\nnext level == level / 2\n1 until ( level eq -1 )"
STEADY = b"a\n-3\n4\nnext a != a\n1 until ( a lt 0 )"
THREE = b"p q r\n0 -1 5\n0 1 6\n( p + q ) <= r"
# One letter a line; sheets of one stream and of eight.
ONE = b"x\n0\n0\n"
EIGHT = b"a b c d e f g abcdefgh\n0 0 0 0 0 0 0 0\n1 1 1 1 1 1 1 1\na until b"
LONG = 70


def lines(*texts):
    return b"\n".join(texts)


def chosen_cases():
    """What document 02 says, and what a reader could take it for."""
    cases = [(UNTIL, record, None) for record in (
        # the record played to its end, with and without a last byte 10
        lines(b"x y", b"1 0", b"1 0", b"0 1", b"0 0"),
        lines(b"x y", b"1 0", b"1 0", b"0 1", b"0 0", b""),
        # names only, and no names
        b"x y", b"x y\n", b"", b"\n", b"\n\n", b" ",
        # the first line that has no way on; a later fault does not matter
        lines(b"x y", b"1 0", b"0 0", b"9"),
        lines(b"x y", b"0 0", b"1 0"),
        # blank lines are lines without integers, the last one too
        lines(b"x y", b"", b"1 0"), b"x y\n\n", b"x y\n1 0\n\n", b"x y\n1 0\n ",
        # values of any length, and outside their range
        lines(b"x y", b"1 0", b"4294967296 1"), lines(b"x y", b"18446744073709551616 1"),
        lines(b"x y", b"1 -1"), lines(b"x y", b"9" * LONG + b" 1"),
        lines(b"x y", b"-" + b"9" * LONG + b" 1"), lines(b"x y", b"2 1"),
        # several faults in one line: 13, 14, 12
        lines(b"x y", b"1 0", b"2 ("), lines(b"x y", b"2 2 2"), lines(b"x y", b"0 0 0"),
        lines(b"x y", b"2"), lines(b"x y", b"9 0x"), lines(b"x y", b"7 -0"),
        # no integers, and other counts
        lines(b"x y", b"1"), lines(b"x y", b"1 0 1"), lines(b"x y", b"01 1"),
        lines(b"x y", b"0" * LONG + b" 1"), lines(b"x y", b"-0 1"), lines(b"x y", b"+1 1"),
        lines(b"x y", b"- 1"), lines(b"x y", b"1 --1"), lines(b"x y", b"( 1 1 )"),
        lines(b"x y", b"(1)1"), lines(b"x y", b"x y"), lines(b"x y", b"1,1"),
        # spaces are free, other bytes are barred
        b"  x   y  \n 1    1 \n0 0", b"x y\r\n1 0\r\n", b"x y\n1 0\r\n", b"x y\n1\t0\n",
        b"x\ty\n1 0\n", b"x y\n1 1\x00\n", b"x y\n1 1\x80", b"x y\x7f\n1 1",
        # names that differ
        lines(b"y x", b"1 0"), lines(b"x", b"1"), lines(b"x y z", b"1 0 1"), lines(b"x yy", b"1 0"),
        lines(b"xy", b"1 0"), lines(b"x y (", b"1 0"), lines(b"(x y)", b"1 0"), lines(b"X y", b"1 0"),
        lines(b"", b"x y", b"1 0"), lines(b"1 0"),
    )]
    record = lines(b"x y", b"0 0")
    cases += [(UNTIL, record, start) for start in (
        b"0", b"1", b"2", b"01", b"00", b"", b"-0", b"-1", b"+1", b" 1", b"1 ", b"x", b"1\n",
        b"9" * LONG, b"4294967297", b"256")]
    cases += [
        # 11 before 13; the sheet's numbers before both
        (UNTIL, lines(b"y x", b"0 0"), b"2"), (UNTIL, b"", b"7"),
        (b"x\n0\n", record, b"7"), (b"", b"", None), (b"x\n0\n1\nx lt 0", b"x\n0", b"x"),
        # other sheets
        (ONE, b"x\n" + b"0\n" * 12, None), (ONE, b"x\n0", b"0"), (ONE, b"x\n0", b"1"),
        (EIGHT, lines(b"a b c d e f g abcdefgh", b"1 0 0 1 0 1 1 0", b"0 1 0 0 0 0 0 1", b"0 0 0 0 0 0 0 0"), None),
        (EIGHT, lines(b"a b c d e f g abcdefghi", b"1 0 0 1 0 1 1 0"), None),
        (EIGHT, lines(b"a b c d e f g abcdefgh", b"1 0 0 1 0 1 1"), None),
        (EIGHT, lines(b"a b c d e f g abcdefgh", b"1 0 0 1 0 1 1 0 0"), None),
        # kinds stand in the sheet alone (document 02, S-6)
        (KINDS, lines(b"x y", b"1 0", b"0 1", b"0 0"), None), (KINDS, lines(b"x y", b"1 0", b"0 0"), None),
        (KINDS, lines(b"x y", b"read set", b"1 0"), None), (KINDS, lines(b"x y", b"0 0"), b"1"),
        (b"x\n0\n1\nread set", b"x\n0", None), (b"read\n0\n1", b"read\n0", None),
        # so does the release (document 02, S-11)
        (HALVED, lines(b"level", b"-5", b"-3", b"-2", b"-1", b"-1"), None),
        (HALVED, lines(b"level", b"-5", b"-2"), None),
        (HALVED, lines(b"release 2", b"level", b"-5"), None),
        (HALVED, lines(b"level", b"-3"), b"1"),
        (b"release 3\n" + UNTIL, lines(b"x y", b"0 1"), None),
        (b"release 1\n" + UNTIL, lines(b"x y", b"1 0", b"0 1", b"0 0"), None),
        (b"release x\n0 0\n1 1\nrelease until x", lines(b"release x", b"1 0", b"0 1"), None),
    ]
    return cases


def lawful_case(rng):
    """Lines in the ranges of a sheet, as many as take two or three digits;
    now and then one byte is another."""
    text, low_high = rng.choice((
        (UNTIL, ((0, 1), (0, 1))), (STEADY, ((-3, 4),)), (THREE, ((0, 0), (-1, 1), (5, 6)))))
    count = rng.choice((3, 12, 40, 120))
    record = lines(text.split(b"\n")[0], *(
        b" ".join(b"%d" % rng.randint(*ends) for ends in low_high) for _ in range(count)))
    if text == UNTIL:
        record = record.replace(b"0 0", b"0 1")
    if rng.random() < 0.4:
        place = rng.randrange(len(record))
        record = record[:place] + bytes([rng.randrange(256)]) + record[place + 1:]
    return text, record + rng.choice((b"", b"\n")), None


def replay_cases(seed, drawn, lawful):
    rng = random.Random(seed)
    return (chosen_cases() + [drawn_case(rng) for _ in range(drawn)]
            + [lawful_case(rng) for _ in range(lawful)])
