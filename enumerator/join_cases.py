"""Cases for the join of two given tables: tables with rooms, and pairs of
sheets.  A seed fully determines what is given."""

import random
from collections import namedtuple

from given_cases import (altered, chain, compiled_table, cycle, damaged,
                         drawn_pool, drawn_sheet, drawn_streams, drawn_table,
                         malformed_tables, one_stream, sheet_pool, sheet_text,
                         spelled_otherwise, unfit_streams, with_zero_rows,
                         written_table)
from given_check import table_of_sheet
from join import analyse_join, join_sheets
from limits import SITUATIONS
from sluice import sluice
from streams import streams_of

# rooms: for each call the fewest rows that a lent table holds.
JoinCase = namedtuple("JoinCase", "name left right rooms")

UNTIL = "x|0|1|1 until x"
ALTERNATE = "x|0|1|x == 0 fby ( 1 - x )"
WEIR = "level up|0 0|1 1|read set|level -> up"
# A gauge and two gates of one weir, and a gate of another that stands open one
# time after the gauge stood high, and is shut at some time.
UPPER = ("level a b|0 0 0|2 1 1|read set set|( level ge 1 ) -> a"
         "|( level ge 2 ) -> b")
LOWER = ("c level|0 0|1 2|set read|( level eq 2 ) -> next c|1 until ( c eq 0 )")


def clock(name, values):
    return "%s|0|%d|%s == 0 fby ( ( %s + 1 ) %% %d )" % (
        name, values - 1, name, name, values)


def many(names, high=0):
    """Streams of one value, or of more."""
    words = names.split()
    return "|".join((names, " ".join("0" for _ in words),
                     " ".join(str(high) for _ in words)))


def rising(name, highest):
    """From 0 notch by notch to the highest value, at some time."""
    return ("NAME|0|%d|next NAME >= NAME|next NAME <= NAME + 1|first NAME == 0"
            "|1 until ( NAME eq %d )" % (highest, highest)).replace("NAME", name)


# What x was four times before is 1 at some time at which x is 1: 17 states.
REPEATED = "x|0|1|1 until ( x and ( 0 fby ( 0 fby ( 0 fby ( 0 fby x ) ) ) ) )"

# Two sheets with the refusal that is given in enough room, the pairs, and the
# rows and final bytes of the joined table; all worked out by hand.
SHEETS = (
    # one gauge: the first sheet's streams first, then the second's others
    ("one-gauge", WEIR, "low level|0 0|1 1|set read|level -> ( low eq 0 )",
     0, 1, "0 0 0 0 N N 0 N", "1"),
    ("one-gauge-swapped", "low level|0 0|1 1|set read|level -> ( low eq 0 )",
     WEIR, 0, 1, "0 0 N 0 0 0 N N", "1"),
    ("others-in-order", "b|0|1|b == 1", "c b a|0 0 0|1 1 1|c != a",
     0, 1, "N N N N N 0 0 N", "1"),
    ("places-differ", "a b|0 0|1 2|a -> b", "b a|0 0|2 1|b -> a",
     0, 1, "0 N N N 0 0", "1"),
    ("upper-and-lower", UPPER, LOWER, 0, 4,
     "1 0 1 0 1 0 1 0 N N N N 1 0 1 0 N N N N N N 2 3"
     "|1 1 1 1 1 1 1 1 N N N N 1 1 1 1 N N N N N N 2 2"
     "|N 1 N 1 N 1 N 1 N N N N N 1 N 1 N N N N N N N 2"
     "|N 0 N 0 N 0 N 0 N N N N N 0 N 0 N N N N N N N 3", "0110"),
    # final is by meaning, not "both final" and not "either"
    ("until-and-always", UNTIL, "x|0|1|x == 1", 0, 2, "N 0", "1"),
    ("until-and-two-values", UNTIL, "x|0|1|1 until ( 1 - x )",
     0, 4, "1 2|1 3|3 2|3 3", "0001"),
    ("final-by-meaning", "x|0|1|x == 0 fby 1", UNTIL,
     0, 3, "1 N|N 1", "11"),
    ("either-final", UNTIL, "y|0|1|1 until y",
     0, 4, "0 1 2 3|1 1 3 3|2 3 2 3|3 3 3 3", "0001"),
    ("either-final-swapped", "y|0|1|1 until y", UNTIL,
     0, 4, "0 1 2 3|1 1 3 3|2 3 2 3|3 3 3 3", "0001"),
    # pairs with the same continuations are one state
    ("itself", UNTIL, UNTIL, 0, 2, "0 1|1 1", "01"),
    ("free-second", UNTIL, "x|0|1", 0, 2, "0 1|1 1", "01"),
    ("free-first", "x|0|1", UNTIL, 0, 2, "0 1|1 1", "01"),
    ("same-continuations", ALTERNATE, UNTIL, 0, 4, "1 N|N 0", "11"),
    ("other-words-same-rules", "x|0|1|x >= 1", "x|0|1|x != 0", 0, 1, "N 0",
     "1"),
    # dead pairs count, and pairs that no record leads to do not
    ("dead-pair", ALTERNATE, "x|0|1|x == 0", 9, 2, "", ""),
    ("dead-pair-beside", "x|0|2|next x == x",
     "x|0|2|( x eq 2 ) -> ( ( next x ) ne 2 )", 0, 4, "1 2 N|1 N N|N 2 N",
     "111"),
    ("dead-pairs-in-a-row", "x|0|2|next x == ( x + 1 ) % 3",
     "x|0|2|1 until ( x eq 2 )|( x eq 2 ) -> ( ( next x ) eq 1 )", 9, 4, "",
     ""),
    ("clocks-in-step", clock("x", 2), clock("y", 2), 0, 2,
     "1 N N N|N N N 0", "11"),
    ("clocks-2-and-3", clock("x", 2), clock("y", 3), 0, 6,
     "1 N N N N N|N N N N 2 N|N N 3 N N N|N N N 4 N N|N 5 N N N N|N N N N N 0",
     "111111"),
    ("clocks-4-and-6", clock("x", 4), clock("y", 6), 0, 12, None, "1" * 12),
    ("clocks-apart", clock("x", 3), "x|0|2|x == 1 fby ( ( x + 1 ) % 3 )",
     9, 1, "", ""),
    # no common solution
    ("never-and-until", UNTIL, "x|0|1|x == 0", 9, 1, "", ""),
    ("untils-exclude", "x|0|1|( x eq 0 ) until ( next x )|next x >= x",
     "x|0|1|x == 0 fby 0", 9, 1, "", ""),
    # shared names with another range or kind
    ("high-differs", "x|0|1", "x|0|2", 17, None, "", ""),
    ("low-differs", "x|0|1", "x|-1|1", 17, None, "", ""),
    ("range-moved", "x|0|1", "x|1|2", 17, None, "", ""),
    ("kind-differs", "x|0|1|read", "x|0|1", 17, None, "", ""),
    ("kind-differs-said", "x|0|1|set", "x|0|1|read", 17, None, "", ""),
    ("kind-unsaid", "x|0|1|set|x == 1", "x|0|1|x == 1", 0, 1, "N 0", "1"),
    ("one-of-two-differs", "a b|0 0|1 1", "b a|0 0|1 2", 17, None, "", ""),
    ("the-other-differs", "a b|0 0|1 1", "b a|0 0|2 1", 17, None, "", ""),
    ("last-differs", "a b c|0 0 0|1 1 1|set set read",
     "c d|0 0|1 1|set set", 17, None, "", ""),
    ("same-name-in-other-place", "a b|0 0|1 2", "b c|0 0|2 1", 0, 1,
     "0 0 0 0 0 0 0 0 0 0 0 0", "1"),
    ("ranges-swapped", "a b|0 0|1 2", "b a|0 0|1 2", 17, None, "", ""),
    ("name-begins-alike", "a|0|1|a == 1", "ab|0|1|ab == 1", 0, 1, "N N N 0",
     "1"),
    ("names-of-eight", "weirgate|0|1|weirgate == 1",
     "weirgata|0|1|weirgata == 0", 0, 1, "N N 0 N", "1"),
    ("values-below-zero", "level|-2|1|level <= 0",
     "level gate|-2 0|1 1|( level ge 0 ) -> gate", 0, 1, "0 0 0 0 N 0 N N",
     "1"),
    ("values-at-the-bound", "a|999999999|1000000000|a >= 1000000000",
     "b a|-1000000000 999999999|-999999999 1000000000", 0, 1, "N N 0 0", "1"),
    # bounds on streams and letters: shared streams count once
    ("streams-8", many("a b c d e"), many("d e f g h"), 0, 1, "0", "1"),
    ("streams-9", many("a b c d e"), many("f g h i"), 7, None, "", ""),
    ("streams-9-one-shared", many("a b c d e"), many("e f g h i"), 7, None,
     "", ""),
    ("streams-8-all-shared", many("a b c d e f g h"), many("h g f e d c b a"),
     0, 1, "0", "1"),
    ("letters-1024", "x|0|31", "y|0|31", 0, 1, None, "1"),
    ("letters-1056", "x|0|32", "y|0|31", 7, None, "", ""),
    ("letters-1025", "x|0|204", "y|0|4", 7, None, "", ""),
    ("letters-2046", "x|0|1022", "y|0|1", 7, None, "", ""),
    ("letters-1024-shared", "x y|0 0|31 31", "y x|0 0|31 31", 0, 1, None, "1"),
    ("letters-1048576", "x|0|1023", "y|0|1023", 7, None, "", ""),
    ("letters-65536", many("a b c d", 3), many("e f g h", 3), 7,
     None, "", ""),
    # 17 before 7
    ("range-and-letters", "x y|0 0|1 511", "y z|0 0|510 1", 17, None, "", ""),
    ("kind-and-streams", many("a b c d e"), many("e f g h i") + "|"
     + "read set set set set", 17, None, "", ""),
    # a value that is missing breaks a rule (S-5)
    ("width", "volume width|0 0|2 1|( volume / width ) >= 0",
     "width|0|1", 0, 1, "N 0 N 0 N 0", "1"),
)


def written_cases():
    """Tables that no compile gave, each worked out by hand: the name, the
    tables, the refusal in enough room, the pairs, and rows and final bytes."""
    x, y = one_stream("x", 1), one_stream("y", 1)
    even = written_table("1|0", "10", x)
    odd = written_table("1|0", "01", x)
    once = written_table("1|1", "10", x)
    ends = written_table("1|N", "10", x)
    opened = written_table("0 1|1 1", "11", one_stream("x"))
    stays = written_table("0 1|2 2|2 2", "011", one_stream("x"))
    falls = written_table("1 N|1 0", "01", one_stream("x"))
    return (
        # final at even times and at odd ones: never both
        ("even-and-odd", even, odd, 9, 2, "", ""),
        ("even-and-odd-apart", even, odd._replace(streams=y), 9, 2, "", ""),
        # a pair with both final leads to one without
        ("even-and-even", even, even, 11, 2, "", ""),
        ("final-once", once, once, 11, 2, "", ""),
        ("final-once-beside", once, written_table("0", "1", y), 11, 2, "", ""),
        ("final-then-no-way", ends, ends, 11, 2, "", ""),
        ("final-falls-for-one", stays, falls, 11, 5, "", ""),
        # a final state that is lost while the other is not final
        ("falls-before-both", once, odd, 9, 3, "", ""),
        # rows that no record leads to are not looked at
        ("falls-where-no-record-leads", written_table("0|2|1", "110", x),
         written_table("0", "1", x), 0, 1, "0", "1"),
        ("dead-row", written_table("1 2|N N|2 2", "001", one_stream("x")),
         written_table("0 0", "1", one_stream("x")), 0, 3, "N 1|1 1", "11"),
        ("not-minimal", opened, opened, 0, 2, "0 0", "1"),
        ("not-in-order", written_table("2 1|1 1|2 N", "011",
                                       one_stream("x")),
         written_table("0 0", "1", one_stream("x")), 0, 3, "1 2|1 N|2 2",
         "111"),
        ("no-way-on", written_table("N", "1", x), written_table("0", "1", x),
         9, 1, "", ""),
        ("not-final", written_table("0", "0", x), written_table("0", "1", x),
         9, 1, "", ""),
    )


def rooms_of(analysis):
    """Just enough, one row too few, more, none, and the most."""
    if analysis.refusal:
        return [0, SITUATIONS]
    pairs = analysis.pairs
    return sorted({0, pairs - 1, pairs, pairs + 1, SITUATIONS - 1, SITUATIONS,
                   SITUATIONS + 1})


def in_rooms(name, left, right):
    return JoinCase(name, left, right,
                    rooms_of(analyse_join(left, right, SITUATIONS)))


def sheet_cases():
    return [in_rooms(name, compiled_table(first), compiled_table(second))
            for name, first, second, *_ in SHEETS]


def fault_cases():
    """Each fault of a table or of its streams, on either side; 11 before 17,
    and what is not looked at."""
    first, second = compiled_table(WEIR), compiled_table(
        "low level|0 0|1 1|set read|1 until ( low or level )")
    clashing = compiled_table("level low|0 0|2 1|set read")
    cases = []
    for kind, variants in (
            ("malformed", malformed_tables),
            ("streams", lambda given: [given._replace(streams=streams) for
                                       streams in unfit_streams(given.streams)])):
        for number, (left, right) in enumerate(zip(variants(first),
                                                   variants(second))):
            cases.append(JoinCase("left-%s-%d" % (kind, number), left, second,
                                  [8]))
            cases.append(JoinCase("right-%s-%d" % (kind, number), first, right,
                                  [8]))
            if number % 4 == 0:
                cases.append(JoinCase("both-%s-%d" % (kind, number), left,
                                      right, [0]))
                cases.append(JoinCase("clash-%s-%d" % (kind, number), clashing,
                                      right, [8]))
    others = [given._replace(streams=spelled_otherwise(given.streams))
              for given in (first, second)]
    cases += [in_rooms("behind-left", others[0], second),
              in_rooms("behind-right", first, others[1]),
              in_rooms("behind-both", *others),
              in_rooms("zero-rows-left", with_zero_rows(first, 3), second),
              in_rooms("zero-rows-right", first, with_zero_rows(second, 2)),
              in_rooms("zero-rows-both", with_zero_rows(second, 1),
                       with_zero_rows(second, 5))]
    return cases


def many_letters(name, letters):
    """A table of one state and so many letters."""
    streams = streams_of((name,), (0,), (letters - 1,), ("set",))
    return written_table(" ".join("0" * letters), "1", streams)


def large_tables():
    """About 4,096 pairs, 4,096 rows and 1,024 letters: the name, the tables,
    rooms, and the refusal in each, worked out by hand."""
    rows = SITUATIONS
    about = [0, rows - 1, rows, rows + 1, 2 * rows]
    one = written_table("0", "1", one_stream("z", 1))
    last_falls = cycle(64, "y")._replace(finals=(0,) * 63 + (1,))
    clocks = [compiled_table("%s|0|31|next %s == ( %s + 1 ) %% 32"
                             % (name, name, name)) for name in "xy"]
    return (
        ("pairs-4096", cycle(64, "x"), cycle(64, "y"), about,
         [10, 10, 0, 0, 0]),
        ("pairs-4096-no-solution", cycle(64, "x", final=0), cycle(64, "y"),
         about, [10, 10, 9, 9, 9]),
        ("pairs-4096-unsettled", cycle(64, "x"), last_falls, about,
         [10, 10, 11, 11, 11]),
        ("pairs-4160", cycle(64, "x"), cycle(65, "y"), about,
         [10, 10, 8, 8, 8]),
        ("pairs-8190", cycle(4095, "x", 1), cycle(2, "x", 1), about,
         [10, 10, 8, 8, 8]),
        ("pairs-192-of-3072", cycle(64, "x", 1), cycle(48, "y", 1),
         [191, 192, rows], [10, 0, 0]),
        ("rows-4096", cycle(rows, "x", 1), one, about, [10, 10, 0, 0, 0]),
        ("rows-4096-right", one, cycle(rows, "x", 1), about,
         [10, 10, 0, 0, 0]),
        ("rows-4097", cycle(rows + 1, "x", 1), one, [rows + 1], [11]),
        ("letters-given-1025", many_letters("x", 1025), one, [1], [11]),
        ("letters-given-1025-right", one, many_letters("x", 1025), [1], [11]),
        ("letters-given-1024", many_letters("x", 1024), one, [0, 1], [10, 0]),
        ("chains-20-20", chain(20, "x"), chain(20, "y"), [399, 400, rows],
         [10, 0, 0]),
        ("clocks-1024-letters", *clocks, [1024, 1025, rows], [10, 0, 0]))


def large_cases():
    return [JoinCase(*case[:4]) for case in large_tables()]


def drawn_case(rng):
    """Two drawn tables over streams of one pool, which they share or not; now
    and then one is damaged or says another range or kind."""
    pool = drawn_pool(rng, 9)
    left, right = drawn_streams(rng, pool), drawn_streams(rng, pool)
    if rng.random() < 0.06:
        right = altered(rng, right)
    return tuple(damaged(rng, drawn_table(rng, drawn))
                 for drawn in (left, right))


def is_telling(analysis):
    """A joined table of a few states."""
    return analysis.table is not None and len(analysis.table.entries) > 1


def drawn_cases(seed, count):
    """So many drawn pairs of tables, of which half have a table of some
    states."""
    rng = random.Random("join %d" % seed)
    cases, plain = [], 0
    while len(cases) < count:
        tables = drawn_case(rng)
        telling = is_telling(analyse_join(*tables, SITUATIONS))
        if telling or plain < count // 2:
            plain += not telling
            cases.append(in_rooms("drawn-%d-%d" % (seed, len(cases)), *tables))
    return cases


# ---- drawn pairs of sheets

def drawn_sheets(rng):
    """Two sheets over streams of one pool."""
    pool = sheet_pool(rng)
    left, right = drawn_streams(rng, pool), drawn_streams(rng, pool)
    if rng.random() < 0.05:
        right = altered(rng, right)
    return drawn_sheet(rng, left), drawn_sheet(rng, right)


# Further pairs of sheets for the program.
PRINTED = (
    # the first sheet's refusal, then the second's, then the join's
    ("", ""), ("x", UNTIL), (UNTIL, ""), (UNTIL, "x|0|1|1 until 0"),
    ("x|0|1|1 until 0", ""), ("x|0|1|1 until 0", "x|0|2"),
    ("x|0|1|next x == x + 1", "x|1|0"), ("x|0|1024", "x|0|1|y == 0"),
    ("x|0|1|read set", "x|0|1"), ("x|0|1|read", "x|0|1|1 until 0"),
    ("x|0|1023|next x == x", "y|0|1024"), ("y|0|1", "x|0|1023|next x == x"),
    # as many pairs as rows are lent for the joined letters, and one more
    (clock("x", 32), "y|0|31"), ("y|0|31", clock("x", 32)),
    ("x|0|31|next x == ( x + 1 ) % 32", "y|0|31"),
    (clock("x", 16), "y|0|15|next y == ( y + 1 ) % 16"),
    (REPEATED, rising("y", 14)), (REPEATED, rising("y", 15)),
    (REPEATED, "x|0|1|1 until ( ( 1 - x ) and ( 0 fby ( 0 fby ( 0 fby ( 1 - x"
     " ) ) ) ) )"),
    # values of many digits, and a long table
    ("level gate|-1000000000 0|-999999998 1|gate -> ( level lt -999999998 )",
     "flow level|999999999 -1000000000|1000000000 -999999998"
     "|1 until ( flow eq 1000000000 )"),
    ("a b c|0 0 0|7 7 3|a <= b", "c d|0 0|3 3|1 until ( c eq d )"),
    # lines without a last byte 10, spaces, and rules that are the same
    ("x|0|1|x >= 1|", "  x | 0|1 |(x)>= 1"), ("x|0|1|x>=1", "x|0|1"),
)


def join_sheets_cases(seed, count):
    """Pairs of sheets for the program: the worked ones, those above, and drawn
    ones whose joined table has several states."""
    rng = random.Random("join sheets %d" % seed)
    pairs = [tuple(map(sheet_text, pair)) for pair
             in [case[1:3] for case in SHEETS] + list(PRINTED)]
    drawn = []
    while len(drawn) < count:
        texts = drawn_sheets(rng)
        if join_sheets(*texts).split(b"\n")[-2].split()[0] > b"1":
            drawn.append(texts)
    return pairs + drawn


def drawn_sheet_cases(seed, count):
    """The tables of so many drawn pairs of sheets that are accepted."""
    rng = random.Random("join tables %d" % seed)
    cases = []
    while len(cases) < count:
        tables = [table_of_sheet(text) for text in drawn_sheets(rng)]
        if None not in tables:
            cases.append(in_rooms("drawn-sheets-%d-%d" % (seed, len(cases)),
                                  *tables))
    return cases


def join_cases(seed, count, sheets):
    written = [in_rooms(name, left, right)
               for name, left, right, *_ in written_cases()]
    return (sheet_cases() + written + fault_cases() + large_cases()
            + drawn_cases(seed, count) + drawn_sheet_cases(seed, sheets))
