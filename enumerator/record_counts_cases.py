"""Cases for `record_counts`: the bytes that it reads. A seed fully determines
what is given."""

from generate import random_kinds_sheets, random_sheets
from replay_cases import EIGHT, LONG, ONE, STEADY, THREE, UNTIL
from shortest_cases import DEEP, DELAYED, RISING

ANY = b"x\n0\n1\n1 until x"
FREE = b"x\n0\n1"
# At time 1 only 0 is allowed: another row's figure passes the bound before the start's does.
SECOND = b"x\n0\n15\n( 1 fby 0 ) -> ( x eq 0 )"
LARGE = b"x\n0\n1023"
NO_SOLUTION = b"x\n0\n1\nx == 2"
SHEETS = (UNTIL, STEADY, THREE, ONE, EIGHT, DEEP, DELAYED, RISING)
LINES = (b"", b"0", b"1", b"64", b"65", b"00", b"05", b"-0", b"-1", b"+1", b"x", b"1 2",
         b" 3", b"3 ", b"  3  ", b"(3)", b"3(", b"\t3", b"3\r", b"3\x00", b"\xff", b"9" * 30,
         b"9" * LONG, b"0" * LONG, b"-" + b"9" * 30, b" " * LONG + b"2", b"4294967296",
         b"18446744073709551616", b"1000000001")


def chosen_cases():
    """Lines before a sheet, sheets, their refusals beside those of the line, and figures at the bound."""
    cases = [line + b"\n" + ANY for line in LINES]
    cases += [b"5\n" + sheet for sheet in SHEETS]
    cases += [line + b"\n" + sheet for line in (b"3", b"x", b"65")
              for sheet in (NO_SOLUTION, b"", b"x\x00\n0\n1", b"a b c d e f g h i\n0\n1",
                            b"x\n0\n1024", b"x\n0\n1023\nnext x == x", b"if\n0\n1",
                            b"x\n0\n2000000000")]
    cases += [b"62\n" + FREE, b"63\n" + FREE, b"64\n" + FREE, b"16\n" + SECOND,
              b"17\n" + SECOND, b"6\n" + LARGE, b"7\n" + LARGE, b"64\n" + ONE]
    cases += [b"", b"3", b"\n", b"\n\n", b"3\n", b"\n" + ANY, b"3\n\n" + ANY,
              b"2\nx\n0\n1" + b" " * 16378, b"2\nx\n0\n1" + b" " * 16379, b"2\n" + b" " * 16385]
    return cases


def drawn_cases(rng_sheets, length):
    return [b"%d\n" % length + text for _, text in rng_sheets]


def record_counts_cases(seed, sheets):
    return (chosen_cases() + drawn_cases(random_sheets(seed, sheets), 6)
            + drawn_cases(random_kinds_sheets(seed, sheets), 64))
