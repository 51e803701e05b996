"""The sheets of document 01 with the answers that document 01 gives them, and
sheets with divisions by zero (document 02, S-5) and of release 2 (S-11) with
answers worked out by hand."""

from collections import namedtuple

from compiler import compile_sheet
from limits import NO_ENTRY, SITUATIONS
from sluice import sluice

# What is said of a sheet; None where nothing is said.
Example = namedtuple("Example", "name sheet refusal states situations "
                                "entries finals output")

P1_OUTPUT = b"""state final level gate next
0 1 0 0 0
0 1 0 1 0
0 1 1 0 0
0 1 1 1 0
0 1 2 1 0
"""


def example(name, text, refusal=0, states=None, situations=None,
            entries=None, finals=None, output=None):
    """"Lines are parted by `|`." """
    return Example(name, text.replace("|", "\n").encode(), refusal, states,
                   situations, entries, finals, output)


DOCUMENT_01 = (
    example("P1", "level gate|0 0|2 1|( level ge 2 ) -> gate", states=1,
            entries=[[0, 0, 0, 0, NO_ENTRY, 0]], finals=[1],
            output=P1_OUTPUT),
    example("P2", "x|0|1|next x == x + 1", 9, output=b"refused 9\n"),
    example("P3", "x|0|1|1 until x", situations=3, states=2,
            entries=[[0, 1], [1, 1]], finals=[0, 1]),
    example("P4", "x y|0 0|1 1|x until y",
            entries=[[NO_ENTRY, 1, 0, 1], [1, 1, 1, 1]]),
    example("P5", "x|0|0", states=1, entries=[[0]], finals=[1]),
    example("P6", "x|0|1|x == 0 fby ( 1 - x )", situations=4, states=2,
            entries=[[1, NO_ENTRY], [NO_ENTRY, 0]], finals=[1, 1]),
    example("P7-ge", "x|0|1|x >= 1", entries=[[NO_ENTRY, 0]], finals=[1]),
    example("P7-ne", "x|0|1|x != 0", entries=[[NO_ENTRY, 0]], finals=[1]),
    example("P8", "x|0|1|1 until 0", 9, output=b"refused 9\n"),
    example("1024-letters", "x|0|1023"),
    example("1025-letters", "x|0|1024", 7, output=b"refused 7\n"),
    example("interval-passes", "x|0|1000|x * 1000000 == 0"),
    example("interval-leaves", "x|0|1000|x * 1000001 == 0", 6,
            output=b"refused 6\n"),
    example("six-next", "x|0|1|next next next next next next x == 0"),
    example("seven-next", "x|0|1|next next next next next next next x == 0",
            7, output=b"refused 7\n"),
    # What follows is worked out by hand from the rules of document 01.
    example("final-by-meaning", "x|0|1|x == 0 fby 1|1 until x",
            finals=[1, 1]),
    example("quotient-cut", "x|-3|-3|x == -7 / 2|-1 == -7 % 2",
            entries=[[0]]),
    example("negative-is-true", "x|-1|1|1 until ( x - 1 )",
            entries=[[1, 1, 0], [1, 1, 1]], finals=[0, 1]),
    example("negative-left", "x y|-1 0|0 1|x until y",
            entries=[[0, 1, NO_ENTRY, 1], [1, 1, 1, 1]], finals=[0, 1]),
    example("negative-condition", "x|-2|2|x == if x then x else 1",
            entries=[[0, 0, NO_ENTRY, 0, 0]]),
    example("negative-implies", "x y|-1 -1|0 0|x -> y",
            entries=[[0, NO_ENTRY, 0, 0]]),
    example("not-and-or", "x|-1|1|( not x ) == ( ( x and x ) eq ( x and 0 ) )"
                          "|( x or 0 ) == ( x ne 0 )", entries=[[0, 0, 0]]),
    example("first-counts", "x|0|2|first x >= 0", situations=4, states=1),
    example("first-in-first", "x|0|2|first first x >= 0", situations=4),
    example("first-left-of-fby", "x|0|1|( ( first x ) fby 0 ) >= 0",
            situations=7),
    example("first-next", "x|0|1|( first next x ) >= 0", situations=7),
)


# Entries over streams x and y from 0 to 1: the letters are 00, 01, 10, 11.
ONLY_Y = [[NO_ENTRY, 0, NO_ENTRY, 0]]
FIRST_Y = [[NO_ENTRY, 1, NO_ENTRY, 1], [1, 1, 1, 1]]
X_UNTIL_Y = [[NO_ENTRY, 1, 0, 1], [1, 1, 1, 1]]


def over_x_y(name, lines, *answer, **answers):
    return example(name, "x y|0 0|1 1|" + lines, *answer, **answers)


DISCHARGE = "volume width flow|0 0 0|2 1 2|"
DISCHARGE_OUTPUT = b"""state final volume width flow next
0 1 0 1 0 0
0 1 1 1 1 0
0 1 2 1 2 0
"""
DISCHARGE_GUARDED_OUTPUT = b"""state final volume width flow next
0 1 0 0 0 0
0 1 0 1 0 0
0 1 1 0 0 0
0 1 1 1 1 0
0 1 2 0 0 0
0 1 2 1 2 0
"""

# Document 02, S-5: a quotient or remainder with divisor 0 has no value.
DIVISIONS = (
    # "A comparison or implication with none on either side fails"
    over_x_y("none-compared", "x / y == 0", states=1, situations=2,
             entries=[[NO_ENTRY, 0, NO_ENTRY, NO_ENTRY]], finals=[1]),
    over_x_y("none-remainder", "x % y == 0", entries=ONLY_Y, finals=[1]),
    example("none-remainder-always", "x|0|1|( x % 0 ) == 0", 9),
    example("none-after-quotients",
            "x|-3|-3|x == -7 / 2|-1 == -7 % 2|0 == x / 0|0 == x % 0", 9),
    example("none-equals-none", "x|0|1|( x / 0 ) == ( x / 0 )", 9),
    example("none-differs-from-none", "x|0|1|( x / 0 ) != ( x / 0 )", 9),
    example("none-implied-by-false", "x|0|1|0 -> ( x / 0 )", 9),
    example("none-implies-true", "x|0|1|( x / 0 ) -> 1", 9),
    over_x_y("none-implied", "x -> ( 1 / y )", entries=ONLY_Y, finals=[1]),
    over_x_y("none-implies", "( x / y ) -> x", entries=ONLY_Y, finals=[1]),
    # "Any operator with a part that has none [..] gives none"
    over_x_y("none-or", "( ( y eq 0 ) or ( ( x / y ) ge 0 ) ) == 1",
             states=1, situations=2, entries=ONLY_Y, finals=[1]),
    over_x_y("none-or-true", "( 1 or ( x / y ) ) == 1", entries=ONLY_Y),
    over_x_y("none-and", "( ( y ne 0 ) and ( x / y ) ) == 0",
             entries=[[NO_ENTRY, 0, NO_ENTRY, NO_ENTRY]]),
    over_x_y("none-and-false", "( 0 and ( x / y ) ) == 0", entries=ONLY_Y),
    over_x_y("none-on-the-left-of-and", "( ( x / y ) and 0 ) == 0",
             entries=ONLY_Y),
    example("none-not", "x|0|1|( not ( x / 0 ) ) >= 0", 9),
    example("none-times-0", "x|0|1|( 0 * ( x / 0 ) ) == 0", 9),
    example("none-eq-none", "x|0|1|( ( x / 0 ) eq ( x / 0 ) ) >= 0", 9),
    example("none-divisor", "x|1|2|( x / ( x / 0 ) ) >= 0", 9),
    # "`if` needs only its condition and chosen branch"
    over_x_y("guarded", "( if y then ( x / y ) else 0 ) == 0", states=1,
             situations=2, entries=[[0, 0, 0, NO_ENTRY]], finals=[1]),
    over_x_y("guarded-by-else", "( if ( y eq 0 ) then 0 else ( x % y ) ) == 0",
             entries=[[0, 0, 0, 0]]),
    over_x_y("guarded-too-late",
             "( if y then ( x / ( 0 fby y ) ) else 0 ) >= 0",
             entries=[[0, NO_ENTRY, 0, NO_ENTRY]]),
    over_x_y("none-condition", "( if ( x / y ) then 1 else 1 ) == 1",
             entries=ONLY_Y),
    over_x_y("none-chosen", "( if x then ( 1 / y ) else 1 ) == 1",
             entries=[[0, 0, NO_ENTRY, 0]]),
    # "`until` treats none as 0"
    example("none-until-left", "y|0|1|( 1 / 0 ) until y", states=2,
            situations=2, entries=[[NO_ENTRY, 1], [1, 1]], finals=[1, 1]),
    example("none-until-right", "y|0|1|1 until ( 1 / y )", states=2,
            situations=3, entries=[[0, 1], [1, 1]], finals=[0, 1]),
    example("none-until-never", "y|0|1|1 until ( y / 0 )", 9),
    over_x_y("none-until-left-or-done", "( 1 / x ) until y",
             entries=X_UNTIL_Y, finals=[0, 1]),
    over_x_y("none-until-right-or-left", "x until ( 1 / y )",
             entries=X_UNTIL_Y, finals=[0, 1]),
    over_x_y("none-not-until", "( not ( 1 / x ) ) until y", entries=FIRST_Y,
             finals=[1, 1]),
    # `next` reads the later time only, `fby` one side at a time
    over_x_y("none-next", "next ( x / y ) == 0", states=2, situations=6,
             entries=[[1, 1, 1, 1], [NO_ENTRY, 1, NO_ENTRY, NO_ENTRY]]),
    example("none-first-next", "y|0|1|( first next ( 1 / y ) ) == 1",
            entries=[[1, 1], [NO_ENTRY, 2], [2, 2]]),
    example("none-left-of-fby", "y|0|1|0 == ( ( 0 / y ) fby 0 )", states=2,
            situations=4, entries=[[NO_ENTRY, 1], [1, 1]]),
    example("none-right-of-fby", "y|0|1|1 >= ( 0 fby ( 1 / y ) )", states=1,
            situations=5, entries=[[NO_ENTRY, 0]]),
    example("none-until-fby", "y|0|1|1 until ( ( 1 / y ) fby 1 )",
            entries=[[0, 0]], finals=[1]),
    over_x_y("none-next-fby", "( next ( ( x / 0 ) fby y ) ) == 1",
             entries=ONLY_Y),
    # "The `first` of none is none, in situations too."
    over_x_y("none-first-not-read",
             "( if 1 then 1 else ( first ( x / y ) ) ) == 1", states=1,
             situations=4, entries=[[0, 0, 0, 0]]),
    over_x_y("none-first-times-0", "( 0 * ( first ( x / y ) ) ) != 1",
             states=2, situations=3, entries=FIRST_Y),
    over_x_y("none-first-of-first", "( first first ( x / y ) ) >= 0",
             states=2, situations=3, entries=FIRST_Y),
    over_x_y("none-first-in-first",
             "( if 1 then 1 else ( first ( 0 * ( first ( x / y ) ) ) ) ) == 1",
             states=1, situations=4),
    over_x_y("none-until-first", "( first ( 1 / x ) ) until y", states=3,
             entries=[[NO_ENTRY, 1, 2, 1], [1, 1, 1, 1], [2, 1, 2, 1]]),
    example("none-first-of-none", "x|0|1|( first ( x / 0 ) ) == 0", 9),
    # 106 situations where 105 rows are lent, and 105 where 106 are
    example("none-first-refused-10", "x y|0 0|103 2|"
            "( if 1 then 1 else ( first ( x / y ) ) ) == 1", situations=106,
            output=b"refused 10\n"),
    example("none-first-within-rows", "x y|0 0|102 2|"
            "( if 1 then 1 else ( first ( x / y ) ) ) == 1", situations=105),
    # docs/sheets.md, "A discharge sheet"
    example("discharge", DISCHARGE + "flow == volume / width", states=1,
            situations=2, output=DISCHARGE_OUTPUT),
    example("discharge-guarded", DISCHARGE
            + "flow == if width then ( volume / width ) else 0", states=1,
            situations=2, output=DISCHARGE_GUARDED_OUTPUT),
    example("discharge-implied", DISCHARGE
            + "width -> ( flow eq ( volume / width ) )",
            output=DISCHARGE_OUTPUT),
    example("discharge-guarded-rule", DISCHARGE
            + "( if width then ( flow eq ( volume / width ) ) else 1 ) == 1",
            states=1, situations=2,
            entries=[[0, 0, 0, 0, NO_ENTRY, NO_ENTRY,
                      0, 0, 0, NO_ENTRY, 0, NO_ENTRY,
                      0, 0, 0, NO_ENTRY, NO_ENTRY, 0]]),
)


def divided(name, release, numbers, quotient, remainder):
    """A sheet of a release with one letter, which has a quotient and a
    remainder; numbers are the dividend and the divisor."""
    dividend, divisor = numbers
    return example(
        "release-%s" % name, "release %d|x|%d|%d|x / %d == %d|x %% %d == %d" % (
            release, dividend, dividend, divisor, quotient, divisor, remainder),
        states=1, situations=2, entries=[[0]], finals=[1])


DATUM_OUTPUT = b"""state final level mark next
0 1 -4 -2 0
0 1 -3 -2 0
0 1 -2 -1 0
0 1 -1 -1 0
0 1 0 0 0
0 1 1 0 0
0 1 2 1 0
0 1 3 1 0
"""

# Document 02, S-11: "quotients rounded down", "the remainder having the
# divisor's sign".
RELEASES = (
    divided("down-7-by-2", 2, (-7, 2), -4, 1),
    divided("up-7-by-2", 2, (7, 2), 3, 1),
    divided("7-by-down-2", 2, (7, -2), -4, -1),
    divided("down-7-by-down-2", 2, (-7, -2), 3, -1),
    divided("down-8-by-2", 2, (-8, 2), -4, 0),
    divided("8-by-down-2", 2, (8, -2), -4, 0),
    divided("down-8-by-down-2", 2, (-8, -2), 4, 0),
    divided("0-by-down-2", 2, (0, -2), 0, 0),
    divided("down-1-by-2", 2, (-1, 2), -1, 1),
    divided("1-by-down-9", 2, (1, -9), -1, -8),
    divided("down-5-by-1", 2, (-5, 1), -5, 0),
    divided("one-down-7-by-2", 1, (-7, 2), -3, -1),
    divided("one-7-by-down-2", 1, (7, -2), -3, 1),
    example("release-2-by-0", "release 2|x|0|1|x / 0 == 0", 9),
    example("release-2-modulo-0", "release 2|x|-1|1|( x % 0 ) >= -9", 9),
    example("release-2-cut", "release 2|x|-7|-7|x / 2 == -3", 9),
    example("release-1-rounded", "release 1|x|-7|-7|x / 2 == -4", 9),
    # docs/sheets.md, "Levels below datum"
    example("release-2-datum", "release 2|level mark|-4 -2|3 1|"
            "mark == level / 2", states=1, situations=2, output=DATUM_OUTPUT),
    example("release-2-turning", "release 2|x|0|2|first x == 2|"
            "next x == ( x - 1 ) % 3", states=3,
            entries=[[NO_ENTRY, NO_ENTRY, 1], [NO_ENTRY, 2, NO_ENTRY],
                     [0, NO_ENTRY, NO_ENTRY]]),
    example("release-1-turning", "release 1|x|0|2|first x == 2|"
            "next x == ( x - 1 ) % 3", 9),
    example("release-2-guarded", "release 2|x y|-1 0|0 1|"
            "( if y then ( x / ( 2 * y ) ) else x ) == x",
            entries=[[0, 0, 0, 0]]),
    example("release-2-fby", "release 2|x|-3|1|x == 1 fby ( ( x - 3 ) / 2 )",
            states=4, entries=[
                [NO_ENTRY, NO_ENTRY, NO_ENTRY, NO_ENTRY, 1],
                [NO_ENTRY, NO_ENTRY, 2, NO_ENTRY, NO_ENTRY],
                [NO_ENTRY, 3, NO_ENTRY, NO_ENTRY, NO_ENTRY],
                [3, NO_ENTRY, NO_ENTRY, NO_ENTRY, NO_ENTRY]]),
    example("release-2-until", "release 2|x|-1|0|1 until ( x / 2 )", states=2,
            entries=[[1, 0], [1, 1]], finals=[0, 1]),
    example("release-1-until", "release 1|x|-1|0|1 until ( x / 2 )", 9),
)

EXAMPLES = DOCUMENT_01 + DIVISIONS + RELEASES


def example_faults():
    """What the enumerator answers otherwise."""
    faults = []
    for wanted in EXAMPLES:
        compiled = compile_sheet(wanted.sheet, SITUATIONS)
        pairs = list(zip(compiled, wanted[2:7])) + [
            (sluice(wanted.sheet), wanted.output)]
        faults += [(wanted.name, given, want) for given, want in pairs
                   if want is not None and given != want]
    return faults
