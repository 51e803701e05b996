"""Cases for carrying over from an old table to a new one: tables with lengths
of the list, and pairs of sheets.  A seed fully determines what is given."""

import random
from collections import namedtuple

from carry import carry
from generate import sheet_bytes
from given import GivenTable, is_fit, row_of
from given_cases import (altered, chain, compiled_table, cycle, damaged,
                         drawn_lines, drawn_pool, drawn_sheet, drawn_streams,
                         drawn_table, malformed_tables, one_stream, sheet_pool,
                         sheet_text, spelled_otherwise, unfit_streams,
                         with_zero_rows, written_table)
from given_check import table_of_sheet
from limits import NO_ENTRY, TABLE_ROWS
from migrate import migrate
from streams import streams_of

# rooms: for each call the length of the list.
CarryCase = namedtuple("CarryCase", "name old new rooms")

UNTIL = "x|0|1|1 until x"
FREE = "x|0|1"
TWO = "a b|0 0|1 1|"
# A gate that opens stays open for three times, or for two.
THREE_TIMES = ("call gate|0 0|1 1|read set|( gate gt ( 0 fby gate ) ) ->"
               " ( ( next gate ) and ( next next gate ) )|call -> gate")
TWO_TIMES = ("call gate|0 0|1 1|read set|( gate gt ( 0 fby gate ) ) ->"
             " ( next gate )|call -> gate")

# Two sheets with the refusal that is given with a list that is long enough, and
# the list; all worked out by hand.
SHEETS = (
    ("itself", UNTIL, UNTIL, 0, "0 1"),
    ("rule-dropped", UNTIL, FREE, 0, "0 0"),
    ("rule-added", FREE, UNTIL, 18, ""),
    ("stricter", FREE, "x|0|1|x >= 1", 18, ""),
    ("other-words", "x|0|1|x == 0 fby ( 1 - x )", "x|0|1|x != ( 1 fby x )",
     0, "0 1"),
    ("other-words-same-rule", "x|0|1|x >= 1", "x|0|1|x != 0", 0, "0"),
    # other solutions, and still a state for each
    ("until-elsewhere", UNTIL, "x|0|1|1 until ( 1 - x )", 18, ""),
    ("until-both-to-one", "x|0|1|1 until x|1 until ( 1 - x )", UNTIL,
     0, "0 0 1 1"),
    ("until-one-to-both", UNTIL, "x|0|1|1 until x|1 until ( 1 - x )", 18, ""),
    ("three-times-to-two", THREE_TIMES, TWO_TIMES, 0, "0 1 2 2"),
    ("two-times-to-three", TWO_TIMES, THREE_TIMES, 18, ""),
    # the new table has no way on for a record of the old one, at once or late
    ("no-way-at-once", FREE, "x|0|1|x == 0", 18, ""),
    ("no-way-late", "x|0|1", "x|0|1|( 0 fby ( 0 fby x ) ) -> ( x eq 0 )", 18,
     ""),
    ("no-way-for-a-dead-end", "x|0|2|x <= 1", "x|0|2|x <= 1|next x >= x", 18,
     ""),
    ("only-allowed-letters", "x|0|2|x <= 1", "x|0|2|x <= 1", 0, "0"),
    ("laxer-range-rule", "x|0|2|x <= 1", "x|0|2|( x eq 2 ) -> next x", 0, "0"),
    # one old state, several new ones: what the old table forgets
    ("forgets-the-first", "x|0|1", "x|0|1|( first x ) -> x", 18, ""),
    ("forgets-the-last", "x|0|1", "x|0|1|next x != x", 18, ""),
    ("remembers-the-last", "x|0|1|next x != x", "x|0|1", 0, "0 0 0"),
    ("remembers-more", "x|0|2|next x != x", "x|0|2|( x eq 2 ) -> ( ( next x )"
     " ne 2 )", 0, "0 0 0 1"),
    # state 0 is met again by records that lead elsewhere in the new table
    ("start-met-again", "x|0|1|x == 0 fby ( 1 - x )",
     "x|0|1|x == ( 0 fby ( 1 fby ( first x ) ) )", 18, ""),
    ("start-left-for-ever", "x|0|1|x == 0 fby 1", "x|0|1|x == 0 fby 1",
     0, "0 1"),
    # final bytes play no part
    ("final-or-not", UNTIL, "x|0|1|1 until x|1 until ( x or ( 0 fby x ) )",
     0, "0 1"),
    ("never-final-before", "x|0|1|1 until ( x and ( 0 fby x ) )", "x|0|1",
     0, "0 0 0"),
    # streams
    ("other-name", FREE, "y|0|1", 17, ""),
    ("other-kind", "x|0|1|read", FREE, 17, ""),
    ("kind-unsaid", "x|0|1|set", FREE, 0, "0"),
    ("other-low", "x|0|1", "x|-1|0", 17, ""),
    ("other-high", "x|0|1", "x|0|2", 17, ""),
    ("other-place", TWO + "a -> b", "b a|0 0|1 1|a -> b", 17, ""),
    ("one-stream-more", TWO + "a -> b", "a b c|0 0 0|1 1 0|a -> b", 17, ""),
    ("one-stream-fewer", TWO + "a -> b", "a|0|3", 17, ""),
    ("begins-alike", "a|0|1", "ab|0|1", 17, ""),
    # 17 before 18
    ("other-kind-and-stricter", "x|0|1|read", "x|0|1|x >= 1", 17, ""),
)


def written_cases():
    """Tables written out, with the refusal and the list: rows that no record
    reaches, rows in any order, and ways that meet again."""
    x = one_stream("x")
    one = one_stream("x", 1)
    free = written_table("0 0", "1", x)
    until = compiled_table(UNTIL)
    fork = written_table("1 2|3 3|3 3|3 3", "0001", x)
    return (
        ("unreached-rows", with_zero_rows(until, 2), free, 0, "0 0 N N"),
        ("unreached-row-first-met-last", written_table("2 2|0 0|2 2", "111", x),
         free, 0, "0 N 0"),
        ("unreached-without-way", written_table("0 0|N 0", "11", x),
         written_table("0 0", "0", x), 0, "0 N"),
        ("unreached-would-differ", written_table("0 0|2 1|1 2", "111", x),
         until, 18, ""),
        ("unreached-differs", written_table("0 N|0 1", "11", x), until, 0,
         "0 N"),
        ("new-zero-rows", until, with_zero_rows(free, 3), 0, "0 0"),
        # rows in any order: a rising pass would not do
        ("falling-rows", written_table("3 N|N N|1 N|2 N", "0000", x),
         written_table("1 0|2 0|3 0|3 0", "1111", x), 0, "0 3 2 1"),
        ("falling-rows-differ", written_table("3 N|1 N|1 N|2 N", "0000", x),
         written_table("1 0|2 0|3 0|0 0", "1111", x), 18, ""),
        # two ways to one old row
        ("ways-meet", fork, fork, 0, "0 1 2 3"),
        ("ways-meet-again", fork, written_table("1 1|2 2|2 2", "001", x), 0,
         "0 1 1 2"),
        ("ways-meet-apart", fork, written_table("1 2|3 3|4 4|3 3|4 4", "00011",
                                                x), 18, ""),
        ("ways-meet-one-ends", fork, written_table("1 2|3 3|N N|3 3", "0001",
                                                   x), 18, ""),
        ("both-ways-missing", fork, written_table("1 2|N N|N N", "111", x), 18,
         ""),
        # a loop that leads on in the new table
        ("loop-longer-in-new", written_table("0", "1", one),
         written_table("1|0", "11", one), 18, ""),
        ("loop-shorter-in-new", written_table("1|0", "11", one),
         written_table("0", "1", one), 0, "0 0"),
        ("loops-6-to-3", cycle(6, "x", 1), cycle(3, "x", 1), 0, "0 1 2 0 1 2"),
        ("loops-3-to-6", cycle(3, "x", 1), cycle(6, "x", 1), 18, ""),
        ("loops-6-to-4", cycle(6, "x", 1), cycle(4, "x", 1), 18, ""),
        ("loop-left-late", chain(5, "x", 1), cycle(4, "x", 1), 18, ""),
        ("tail-into-loop", written_table("1|2|3|1", "1111", one),
         written_table("1|2|1", "111", one), 18, ""),
        ("tail-into-shorter-loop", written_table("1|2|3|4|1", "11111", one),
         written_table("1|2|1", "111", one), 0, "0 1 2 1 2"),
        # no way on in the old table needs none in the new one
        ("old-ends", written_table("1 N|N N", "00", x),
         written_table("1 N|N N", "11", x), 0, "0 1"),
        ("old-ends-at-once", written_table("N N", "0", x), until, 0, "0"),
        ("new-ends", written_table("0 N", "0", x),
         written_table("1 N|N N", "11", x), 18, ""),
    )


def rooms_of(old, new):
    """Just enough, one too few, none and some more."""
    rows = len(old.finals)
    if not is_fit(old):
        return [0, 3]
    return sorted({0, max(rows - 1, 0), rows, rows + 3})


def in_rooms(name, old, new):
    return CarryCase(name, old, new, rooms_of(old, new))


def sheet_cases():
    return [in_rooms(name, compiled_table(old), compiled_table(new))
            for name, old, new, *_ in SHEETS]


def fault_cases():
    """Each fault of a table or of its streams, on either side; 11 before 17,
    and what is not looked at."""
    old, new = compiled_table(TWO + "1 until a"), compiled_table(TWO + "a -> b")
    lax = compiled_table(TWO[:-1])
    other = compiled_table("a c|0 0|1 1")
    cases = []
    for kind, variants in (
            ("malformed", malformed_tables),
            ("streams", lambda given: [given._replace(streams=streams) for
                                       streams in unfit_streams(given.streams)])):
        for number, (one, two) in enumerate(zip(variants(old), variants(lax))):
            cases.append(CarryCase("old-%s-%d" % (kind, number), one, lax, [4]))
            cases.append(CarryCase("new-%s-%d" % (kind, number), old, two, [4]))
            if number % 4 == 0:
                cases.append(CarryCase("both-%s-%d" % (kind, number), one, two,
                                       [0]))
                cases.append(CarryCase("other-%s-%d" % (kind, number), other,
                                       two, [1]))
    others = [given._replace(streams=spelled_otherwise(given.streams))
              for given in (old, lax)]
    return cases + [
        in_rooms("behind-old", others[0], lax),
        in_rooms("behind-new", old, others[1]),
        in_rooms("behind-both", *others), in_rooms("two-rules", old, new),
        in_rooms("zero-rows-old", with_zero_rows(old, 3), lax),
        in_rooms("zero-rows-new", old, with_zero_rows(lax, 2)),
        in_rooms("zero-rows-both", with_zero_rows(old, 1),
                 with_zero_rows(old, 5))]


def large_cases():
    """About 4,096 rows and 1,024 letters, and long ways to a difference."""
    rows = TABLE_ROWS
    cases = [(name, old, new, [rows, rows - 1]) for name, old, new in (
        ("rows-4096", cycle(rows, "x", 1), cycle(64, "x", 1)),
        ("rows-4096-itself", cycle(rows, "x", 1), cycle(rows, "x", 1)),
        ("rows-4096-new", cycle(1, "x", 1), cycle(rows, "x", 1)),
        ("rows-4097", cycle(rows + 1, "x", 1), cycle(1, "x", 1)),
        ("rows-4097-new", cycle(1, "x", 1), cycle(rows + 1, "x", 1)),
        ("long-way", chain(rows, "x", 1), chain(rows, "x", 1)),
        ("long-way-to-a-difference", chain(rows - 1, "x", 1),
         chain(rows, "x", 1)),
        ("long-way-to-no-way", chain(300, "x", 1),
         written_table("|".join([str(row + 1) for row in range(300)] + ["N"]),
                       "1" * 301, one_stream("x", 1))))]
    wide = [streams_of(("x", "y"), (0, 0), (31, 31), ("set", "read"))] * 2
    one = [written_table(" ".join("0" * 1024), "1", streams)
           for streams in wide]
    cases += [("letters-1024", *one, [1, 0]),
              ("letters-1024-last-missing", one[0],
               one[1]._replace(entries=one[1].entries[:-1] + (NO_ENTRY,)),
               [1]),
              ("letters-1025", *[written_table(" ".join("0" * 1025), "1",
                                               one_stream("x", 1025))] * 2,
               [1])]
    return [CarryCase(*case) for case in cases]


# ---- drawn tables

def refined(rng, new):
    """An old table over the streams of a new one whose records lead, in the new
    one, to one state for each row: the rows are pairs of a new state and of a
    number that counts letters, in any order."""
    turns = rng.randrange(1, 4)
    keep = rng.choice((0.6, 0.9, 1))
    steps = [rng.randrange(turns) for _ in range(new.letters)]
    pairs, rows = [(0, 0)], []
    for state, turn in pairs:
        row = []
        for entry, step in zip(row_of(new, state), steps):
            after = entry, (turn + step) % turns
            if entry == NO_ENTRY or rng.random() > keep:
                row.append(None)
                continue
            if after not in pairs:
                pairs.append(after)
            row.append(after)
        rows.append(row)
    order = pairs[1:]
    rng.shuffle(order)
    places = {pair: place for place, pair in enumerate([(0, 0)] + order)}
    entries = [NO_ENTRY] * (len(pairs) * new.letters)
    for pair, row in zip(pairs, rows):
        for letter, after in enumerate(row):
            if after is not None:
                entries[places[pair] * new.letters + letter] = places[after]
    finals = tuple(rng.randrange(2) for _ in pairs)
    return GivenTable(tuple(entries), finals, new.letters, new.streams)


def drawn_case(rng):
    """Two tables over the same streams: mostly the old one says more than the
    new one, and now and then an entry is another, a table is damaged, or the
    streams differ."""
    drawn = drawn_streams(rng, drawn_pool(rng, 4))
    new = drawn_table(rng, drawn, 3)
    if rng.random() < 0.3:
        old = drawn_table(rng, drawn, 3)
    else:
        old = with_zero_rows(refined(rng, new), rng.choice((0, 0, 1)))
    if rng.random() < 0.2:
        place = rng.randrange(len(new.entries))
        entry = rng.choice((NO_ENTRY, rng.randrange(len(new.finals))))
        new = new._replace(entries=new.entries[:place] + (entry,)
                           + new.entries[place + 1:])
    if rng.random() < 0.06:
        other = drawn_table(rng, altered(rng, drawn), 2)
        return damaged(rng, old), other
    return damaged(rng, old), damaged(rng, new)


def drawn_cases(seed, count):
    """So many drawn pairs of tables, of which half carry over rows."""
    rng = random.Random("carry %d" % seed)
    cases, plain = [], 0
    while len(cases) < count:
        old, new = drawn_case(rng)
        answer = carry(old, new, len(old.finals))
        telling = len(set(answer.list)) > 1
        if telling or plain < count // 2:
            plain += not telling
            cases.append(in_rooms("drawn-%d-%d" % (seed, len(cases)), old, new))
    return cases


# ---- drawn pairs of sheets

def drawn_change(rng, text):
    """A sheet over the streams of a drawn one that has lost, gained or changed
    a rule, or none; now and then it says other streams."""
    lines, chance = text.decode().split("\n")[:-1], rng.random()
    names, lows, highs, kinds = (line.split() for line in lines[:4])
    drawn = tuple(zip(names, map(int, lows), map(int, highs), kinds))
    if chance < 0.4 and len(lines) > 4:
        del lines[rng.randrange(4, len(lines))]
    elif chance < 0.6:
        lines += drawn_lines(rng, drawn)[4:][:1]
    elif chance < 0.9:
        lines = drawn_lines(rng, drawn)
    elif chance < 0.95:
        lines = drawn_lines(rng, altered(rng, drawn))
    return sheet_bytes(lines)


def drawn_sheets(rng):
    """An old sheet, mostly one with a table, and a new one."""
    old = drawn_sheet(rng, tuple(sheet_pool(rng)[:2]))
    return old, drawn_change(rng, old)


# Further pairs of sheets for the program.
PRINTED = (
    # the old sheet's refusal, then the new one's, then 17 and 18
    ("", ""), ("x", UNTIL), (UNTIL, ""), (UNTIL, "x|0|1|1 until 0"),
    ("x|0|1|1 until 0", ""), ("x|0|1|1 until 0", "y|0|1"),
    ("x|0|1024", "x|0|1|y == 0"), ("x|0|1|read set", FREE),
    ("x|0|1|read", "x|0|1|1 until 0"), ("x|0|1023|next x == x", "x|0|1024"),
    (FREE, "x|0|1023|next x == x"), ("y|0|1", "x|0|1"),
    # many states, and lines of three digits
    ("x|0|119|next x == ( x + 1 ) % 120|first x == 7", "x|0|119"),
    ("x|0|119|next x == ( x + 1 ) % 120|first x == 7",
     "x|0|119|next x == ( x + 1 ) % 120"),
    ("x|0|15|next x >= x|next x <= x + 1|first x == 0|1 until ( x eq 15 )",
     "x|0|15|next x <= x + 1|first x == 0"),
    ("x|0|1|1 until ( x and ( 0 fby ( 0 fby ( 0 fby ( 0 fby x ) ) ) ) )",
     "x|0|1|1 until ( x and ( 0 fby ( 0 fby ( 0 fby ( 0 fby x ) ) ) ) )"),
    ("r g|0 0|3 3|read set|g == 0 fby r", "r g|0 0|3 3|read set|g <= 3"),
)


def migrate_cases(seed, count):
    """Pairs of sheets for the program: the worked ones, those above, and drawn
    ones that carry over several states."""
    rng = random.Random("migrate %d" % seed)
    pairs = [tuple(map(sheet_text, pair)) for pair
             in [case[1:3] for case in SHEETS] + list(PRINTED)]
    drawn = []
    while len(drawn) < count:
        texts = drawn_sheets(rng)
        if migrate(*texts).count(b"\n") > 2:
            drawn.append(texts)
    return pairs + drawn


def drawn_sheet_cases(seed, count):
    """The tables of so many drawn pairs of sheets that are accepted."""
    rng = random.Random("carry tables %d" % seed)
    cases = []
    while len(cases) < count:
        tables = [table_of_sheet(text) for text in drawn_sheets(rng)]
        if None not in tables:
            cases.append(in_rooms("drawn-sheets-%d-%d" % (seed, len(cases)),
                                  *tables))
    return cases


def carry_cases(seed, count, sheets):
    written = [in_rooms(name, old, new)
               for name, old, new, *_ in written_cases()]
    return (sheet_cases() + written + fault_cases() + large_cases()
            + drawn_cases(seed, count) + drawn_sheet_cases(seed, sheets))
