"""Cases for `shortest`: a sheet, and the text of a state or None. A seed fully
determines what is given."""

from generate import random_kinds_sheets, random_sheets
from replay_cases import EIGHT, HALVED, LONG, ONE, STEADY, THREE, UNTIL
from shortest import shortest

# From state 0 two letters, by way of state 1 to state 2: in number order first
# are `0 1` and `1 0`, without a change `1 1` twice.
DELAYED = b"a b\n0 0\n1 1\n1 until ( a and ( 0 fby b ) )"
DELAYED_KINDS = b"a b\n0 0\n1 1\n%s\n1 until ( a and ( 0 fby b ) )"
# A gate that must go from 0 to 3 step by step, beside a gauge that moves freely
# or stands still, and a second gate that need not move.
GATES = (b"level gate lamp\n0 0 0\n2 3 1\nread set set\n( first gate ) == 0\n"
         b"next gate <= gate + 1\nnext level != level\n1 until ( gate eq 3 )")
# Values below 0, and of several digits.
DEEP = b"level gate\n-1000000000 0\n-999999998 1\n1 until ( gate and ( ( next level ) eq -999999998 ) )"
# A stream that rises from 0 to its end takes as many letters.
RISING = b"x\n0\n9\nnext x <= x + 1\n( first x ) == 0\n1 until ( x eq 9 )"
# The same with long values, so that the course has more than 4,096 bytes.
WIDE = (b"x a b c d e f g\n0" + b" -1000000000" * 7 + b"\n59" + b" -1000000000" * 7
        + b"\nnext x <= x + 1\n( first x ) == 0\n1 until ( x eq 59 )")
SHEETS = (UNTIL, STEADY, THREE, ONE, EIGHT, DELAYED, DEEP, RISING, WIDE)


def chosen_cases():
    """Each sheet from its start, the texts of a state, and the sheet's own
    numbers before that of a state."""
    cases = [(sheet, None) for sheet in SHEETS]
    cases += [(DELAYED, start) for start in (
        b"0", b"1", b"2", b"3", b"01", b"00", b"", b"-0", b"-1", b"+1", b" 1", b"1 ", b"x", b"1\n",
        b"9" * LONG, b"4294967297", b"255", b"256")]
    cases += [(RISING, b"%d" % state) for state in range(11)]
    cases += [(b"", None), (b"", b"0"), (b"x\n0\n", b"7"), (b"x\n0\n1\nx lt 0", b"x"),
              (b"x\n0\n1\nnext x == x + 1", None), (b"x\n0\n1\nnext x == x + 1", b"9"),
              (b"x\n0\n1023", None), (b"x\n0\n1024", None), (b"x\x00\n0\n1", b"0"),
              # more situations than the rows that 1,024 letters leave
              (b"x\n0\n1023\nnext x == x", None)]
    return cases


def kinds_cases():
    """Which of equal courses is printed goes by the kinds."""
    kinds = [b"set set", b"set read", b"read set", b"read read"]
    return ([(DELAYED_KINDS % line, None) for line in kinds]
            + [(GATES, start) for start in (None, b"1", b"2", b"3", b"4")])


def release_cases():
    """A sheet of release 2."""
    return [(HALVED, start) for start in (None, b"1", b"2", b"3")]


def is_long(case):
    """The course has letters."""
    return shortest(*case).count(b"\n") > 1


def drawn_cases(drawn, most):
    """The first of the drawn sheets whose course has letters, each from its
    start and from state 1."""
    long = [text for _, text in drawn if is_long((text, None))][:most]
    return [(text, start) for text in long for start in (None, b"1")]


def shortest_cases(seed, sheets, most):
    return (chosen_cases() + drawn_cases(random_sheets(seed, sheets), most)
            + kinds_cases()
            + drawn_cases(random_kinds_sheets(seed, sheets), most)
            + release_cases())
