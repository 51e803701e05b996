"""Cases for the compile with a play table: sheets, each with rooms.  A seed
fully determines what is given."""

import random
from collections import namedtuple

from compiler import analyse
from game import choices
from generate import (random_integer, random_lines, random_part, random_ranges,
                      sheet_bytes, spaced, with_kinds)
from limits import SITUATIONS

# rooms: pairs of the fewest rows that the compile's own tables hold and the
# length of the play table.
GameCase = namedtuple("GameCase", "name sheet rooms")

# A gauge r and a gate g, both from 0 to 1.
GAUGE = "r g|0 0|1 1|read set|"

# Sheets with the refusal that is given in enough room, and for each state
# whether it keeps a row (+) or not (-); all worked out by hand.
SHEETS = (
    # document 01's P1; a sheet that leaves only one letter to each choice
    ("high-water", "level gate|0 0|2 1|read set|( level ge 2 ) -> gate",
     0, "+"),
    ("one-answer", "level gate|0 0|2 1|read set|gate == ( level ge 2 )",
     0, "+"),
    # both are needed: a final state, and a way on for ever
    ("once-equal", GAUGE + "1 until ( g eq r )", 0, "++"),
    ("safe-not-final", GAUGE + "1 until ( r and g )", 16, ""),
    ("final-not-safe", GAUGE + "1 until g|( 0 fby g ) -> ( r eq 0 )", 16, ""),
    ("gauge-until", "x|0|1|read|1 until x", 16, ""),
    # every state is judged, and only state 0 decides about 16
    ("other-state-lost",
     GAUGE + "g -> ( ( next r ) eq 0 )|1 until ( ( 0 fby g ) eq 0 )", 0, "+-"),
    ("four-kinds", "r g|0 0|1 2|read set"
     "|1 until ( if ( ( first g ) eq 0 ) then r else ( g eq 2 ) )"
     "|( 0 fby ( g eq 1 ) ) -> ( r eq 0 )", 0, "+--+--+"),
    ("turns-while-low", "r g|0 0|1 2|read set"
     "|next g == if r then g else ( ( g + 1 ) % 3 )|1 until ( g eq 2 )",
     0, "+-++-+"),
    ("latch", "r g h|0 0 0|1 1 1|read set set|next h == h or ( g and r )"
     "|1 until ( h and g )", 0, "+-++"),
    ("dead-end-late", "g r|0 0|2 1|set read"
     "|( g eq 1 ) -> ( ( next g ) eq 2 )|( g eq 2 ) -> ( ( next r ) eq 0 )"
     "|1 until ( g eq 0 )", 0, "++----"),
    # one choice without read streams, one letter a choice without set ones
    ("all-set", "x|0|1|set|x >= 1", 0, "+"),
    ("all-set-unsaid", "x|0|1|x >= 1", 0, "+"),
    ("all-set-until", "x|0|1|1 until x", 0, "++"),
    ("all-set-clock", "x|0|2|set|x == 0 fby ( ( x + 1 ) % 3 )", 0, "+++"),
    ("all-read-open", "x|0|1|read", 0, "+"),
    ("all-read-one-letter", "x|3|3|read|x == 3", 0, "+"),
    ("all-read-bound", "x|0|1|read|x >= 1", 16, ""),
    ("one-value-gauge", "r g|5 0|5 1|read set|1 until ( g and ( r eq 5 ) )",
     0, "++"),
    # the river gives any value in range, also one that no rule allows
    ("gauge-forbidden", GAUGE + "r == 0", 16, ""),
    ("gauge-forbidden-later", GAUGE + "( 0 fby r ) -> ( r eq 0 )", 16, ""),
    ("gauge-forbidden-by-gate", GAUGE + "( 0 fby g ) -> ( r eq 0 )", 0, "+-"),
    ("gauge-forbidden-at-once", GAUGE + "( 1 fby g ) -> ( r eq 0 )", 16, ""),
    ("gauge-narrowed", "r g|0 0|0 1|read set|r == 0", 0, "+"),
    # the keeper answers what it sees, and does not see what comes
    ("answers-equal", GAUGE + "g == r", 0, "+"),
    ("answers-unequal", GAUGE + "g != r", 0, "+"),
    ("answers-later", GAUGE + "g == 0 fby r", 0, "++"),
    ("answers-twice-later", GAUGE + "g == 0 fby ( 0 fby r )", 0, "++++"),
    ("gate-before-gauge", "g r|0 0|1 1|set read|g == r", 0, "+"),
    ("foresight", GAUGE + "g == next r", 16, ""),
    ("foresight-unequal", GAUGE + "g != next r", 16, ""),
    ("guess-ahead", GAUGE + "1 until ( ( next r ) eq g )", 16, ""),
    ("answer-next", GAUGE + "1 until ( ( next g ) eq r )", 0, "++++"),
    # letters that lead round before a final state may not be played
    ("may-wait", GAUGE + "1 until g", 0, "++"),
    ("may-wait-above", GAUGE + "1 until ( g eq 0 )", 0, "++"),
    ("waits-for-gauge", GAUGE + "1 until ( g and r )|1 until g", 16, ""),
    ("two-in-a-row", GAUGE + "1 until ( g and ( 0 fby g ) )", 0, "+++"),
    ("equal-twice", GAUGE + "1 until ( ( g eq r ) and ( 0 fby ( g eq r ) ) )",
     0, "+++"),
    ("equal-and-unequal", GAUGE + "1 until ( g eq ( 0 fby r ) )"
     "|1 until ( g ne ( 0 fby r ) )", 0, "++++++"),
    ("round-about", "g|0|3|set|next g != g|( next g ) + g != 3"
     "|1 until ( g eq 3 )", 0, "+++++"),
    ("blocked", "b p|0 0|3 3|read set|p != b|1 until ( p eq 0 )", 16, ""),
    ("blocked-one-of-two", "b p|0 0|3 3|read set|p != b|1 until ( p le 1 )",
     0, "++"),
    ("ladder", "r x|0 0|1 9|read set|next x <= ( x + 2 ) - r"
     "|( first x ) == 0|1 until ( x eq 9 )", 0, "+" * 19),
    ("ladder-pushed", "r x|0 0|1 5|read set|next x <= ( x + 1 ) - r"
     "|( first x ) == 0|1 until ( x eq 5 )", 16, ""),
    ("up-and-down", "r x|0 0|1 9|read set|next x >= ( x - 1 ) - r"
     "|1 until ( x eq 0 )", 0, "+" * 18),
    # a way on for ever, over several letters
    ("trap-two-later", GAUGE + "( 0 fby ( 0 fby g ) ) -> ( r eq 0 )",
     0, "+---"),
    ("never-in", GAUGE + "g -> ( ( next g ) and ( next r ) )", 0, "+-"),
    ("never-in-until",
     GAUGE + "g -> ( ( next g ) and ( next r ) )|1 until g", 16, ""),
    ("after-the-first", GAUGE + "( first g ) -> ( r eq ( first r ) )",
     0, "++--"),
    ("after-the-first-until", GAUGE + "( first g ) -> ( r eq ( first r ) )"
     "|1 until ( first g )", 16, ""),
    # several read streams, apart from each other, of several sizes
    ("two-gauges", "a g b|0 0 -1|1 2 1|read set read|g == a + ( b eq 1 )",
     0, "+"),
    ("two-gates", "g a h|0 0 0|1 2 1|set read set|( g + h ) == a", 0, "+"),
    ("eight-choices", "a g|-3 0|4 1|read set|g == ( a lt 0 )", 0, "+"),
    ("gauges-last", "g h a b|0 0 0 0|1 1 1 2|set set read read"
     "|( g + h ) == ( ( a + b ) % 3 )", 0, "+"),
    ("eight-streams", "a b c d e f g h|0 0 0 0 0 0 0 0|1 1 1 1 1 1 1 1"
     "|read set read set read set read set|a == b|c == d|e == f|g == h",
     0, "+"),
    # a value that is missing breaks a rule (S-5)
    ("width-read", "width flow|0 0|1 2|read set|flow == 2 / width", 16, ""),
    ("width-set", "volume width flow|0 0 0|2 1 2|read set set"
     "|flow == volume / width", 0, "+"),
    ("width-guarded", "width flow|0 0|1 2|read set"
     "|flow == if width then ( 2 / width ) else 0", 0, "+"),
    # a basin whose level follows from what flows in and out
    ("basin", "inflow gate level|0 0 0|1 1 3|read set set|first level == 1"
     "|next level == if ( ( level + inflow ) lt ( 2 * gate ) ) then 0"
     " else ( ( level + inflow ) - ( 2 * gate ) )|1 until ( level eq 0 )",
     0, "+++++++"),
    ("basin-small-gate", "inflow gate level|0 0 0|2 1 3|read set set"
     "|first level == 1|next level == if ( ( level + inflow ) lt gate ) then 0"
     " else ( ( level + inflow ) - gate )", 16, ""),
    # the sheet's own numbers come first
    ("form", "r g|0 0|1 1|read|1 until g", 3, ""),
    ("name", GAUGE + "1 until h", 4, ""),
    ("low-above-high", "r g|1 0|0 1|read set", 5, ""),
    ("interval", GAUGE + "r + 1000000000 >= 0", 6, ""),
    ("letters", "r g|0 0|512 1|read set", 7, ""),
    ("no-solution", GAUGE + "r != r", 9, ""),
    ("empty", "", 3, ""),
)

# Lines about a gauge READ and a gate SET that often leave something to force.
# PART is a random part, SMALL a small integer.
TEMPLATES = (
    "READ -> SET",
    "SET <= READ",
    "SET != READ",
    "SET != 0 fby READ",
    "SET == ( SMALL fby READ ) % 2",
    "SET -> ( ( next READ ) eq SMALL )",
    "( 0 fby SET ) -> ( READ ge SMALL )",
    "( 0 fby ( SET eq SMALL ) ) -> ( READ eq SMALL )",
    "next SET <= SET + READ",
    "next SET >= SET - ( READ ne SMALL )",
    "next SET == if READ then SET else ( ( SET + 1 ) % 2 )",
    "next SET != SET",
    "( SET eq SMALL ) -> ( ( next SET ) ne ( next READ ) )",
    "( first SET ) -> ( READ eq ( first READ ) )",
    "( ( first READ ) eq SMALL ) -> ( SET eq SMALL )",
    "PART -> SET",
    "SET >= ( 0 fby PART )",
)
UNTIL_TEMPLATES = (
    "1 until SET",
    "1 until ( SET eq READ )",
    "1 until ( SET eq SMALL )",
    "1 until ( SET and READ )",
    "1 until ( SET eq ( 0 fby READ ) )",
    "1 until ( ( next SET ) eq READ )",
    "1 until ( SET ne ( 0 fby SET ) )",
    "1 until ( ( SET eq SMALL ) and ( 0 fby ( SET ne SMALL ) ) )",
    "1 until ( if ( first SET ) then READ else SET )",
    "SET until READ",
    "( READ or SET ) until ( SET eq SMALL )",
    "PART until SET",
)


def template_line(rng, templates, names, kinds):
    """A template with names of streams that have the kinds."""
    tokens = []
    for word in rng.choice(templates).split():
        named = [name for name, kind in zip(names, kinds)
                 if kind == word.lower()]
        if named:
            tokens.append(rng.choice(named))
        elif word == "SMALL":
            tokens.append(random_integer(rng))
        elif word == "PART":
            tokens += random_part(rng, names, 2)
        else:
            tokens.append(word)
    return spaced(rng, tokens)


def game_lines(rng):
    """The lines of a sheet with a gauge and a gate, in either order, and
    sometimes one of them more."""
    kinds = ["read", "set"] + rng.choice(([], [], ["read"], ["set"]))
    rng.shuffle(kinds)
    names = rng.sample(("a", "r", "level", "g", "gate", "x"), len(kinds))
    lows, highs = random_ranges(rng, len(kinds), 12)
    lines = [" ".join(line) for line in (names, lows, highs, kinds)]
    for templates, most in ((TEMPLATES, 2), (UNTIL_TEMPLATES, 2)):
        lines += [template_line(rng, templates, names, kinds)
                  for _ in range(rng.randrange(most + 1))]
    return lines


def drawn_sheet(rng):
    """The bytes of a drawn sheet with a line of kinds."""
    if rng.random() < 0.2:
        return sheet_bytes(with_kinds(rng, random_lines(rng, 6)))
    return sheet_bytes(game_lines(rng))


def countdown(values):
    """A gate that the keeper lets down notch by notch, to 0 at some time."""
    return ("x|0|%d|set|next x <= x|next x >= x - 1|1 until ( x eq 0 )"
            % (values - 1))


def gauged_countdown(values):
    """The same, where the river says whether two notches at a time are
    allowed."""
    return ("r x|0 0|1 %d|read set|next x <= x|next x >= ( x - 1 ) - r"
            "|1 until ( x eq 0 )" % (values - 1))


def sheet_text(lines):
    """"Lines are parted by `|`." """
    return lines.replace("|", "\n").encode()


def rooms_of(analysis):
    """Just enough, a part of a row more, one number or one row too few, none,
    and more of either alone."""
    if analysis.refusal:
        return [(0, 0), (4, 4)]
    count, total = analysis.situations, len(choices(analysis.sheet))
    exact = count * total
    return sorted({(count, exact), (count, exact + total - 1),
                   (count, exact - 1), (count, exact - total), (count, 0),
                   (count - 1, exact + total), (count + 2, exact),
                   (count + 2, exact - 1), (SITUATIONS, SITUATIONS * total)})


def chosen_cases():
    """The worked sheets and short countdowns, each in many rooms."""
    sheets = [(name, lines) for name, lines, _, _ in SHEETS]
    sheets += [("countdown-30", countdown(30)),
               ("gauged-countdown-20", gauged_countdown(20))]
    texts = [(name, sheet_text(lines)) for name, lines in sheets]
    return [GameCase(name, text, rooms_of(analyse(text, SITUATIONS)))
            for name, text in texts]


def large_cases():
    """Countdowns of many values; and 4,096 situations, more, and many that the
    river prevents, with 5 choices and 45 or 50 letters, or 2 and 4."""
    def free(high, *more):
        return "|".join(("r x|0 0|4 %d|read set" % high,
                         "next next ( r + x ) >= 0", *more))

    rows = SITUATIONS
    about = [(rows, 5 * rows), (rows, 5 * rows - 1), (rows - 1, 5 * rows),
             (2 * rows, 5 * rows + 4), (2 * rows, 10 * rows), (rows, 0)]
    return [GameCase(name, sheet_text(lines), rooms)
            for name, lines, rooms in (
                ("countdown-1000", countdown(1000),
                 [(2002, 2002), (2002, 2001), (2001, 2002), (rows, rows)]),
                ("gauged-countdown-200", gauged_countdown(200),
                 [(803, 1606), (803, 1605), (rows, 2 * rows)]),
                ("situations-4096", free(8), about),
                ("situations-over", free(9), about),
                ("situations-over-4-letters",
                 GAUGE + "next next next next next next ( r + g ) >= 0",
                 [(rows, 2 * rows), (rows, 2 * rows - 1), (rows - 1, 2 * rows),
                  (rows + 16, 2 * rows + 1)]),
                ("situations-prevented", free(8, "( next next r ) <= 3"),
                 [(3691, 18455), (3691, 18454), (3690, 18455),
                  (rows, 5 * rows)]))]


def is_telling(analysis):
    """A compiled table of a few states that is not too large."""
    table = analysis.table
    return (table is not None and len(table.entries) > 1
            and len(table.entries) * len(table.entries[0]) <= 300)


def drawn_cases(seed, count):
    """So many drawn sheets with more than one state, in just enough room and
    in too little."""
    rng = random.Random("game %d" % seed)
    cases = []
    while len(cases) < count:
        text = drawn_sheet(rng)
        analysis = analyse(text, 300)
        if is_telling(analysis):
            rows, total = analysis.situations, len(choices(analysis.sheet))
            cases.append(GameCase(
                "drawn-%d-%d" % (seed, len(cases)), text,
                [(rows, rows * total), (rows, rows * total - 1)]))
    return cases


def game_cases(seed, count):
    return chosen_cases() + large_cases() + drawn_cases(seed, count)
