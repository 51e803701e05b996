"""Writes the sheets of the benchmark, with a list of their sizes.

    python3 bench/compile/sheets.py DIRECTORY

The files and the list are those of bench/sheet_files.py.
"""

import pathlib
import random
import sys

sys.path.insert(0, str(pathlib.Path(__file__).resolve().parents[1]))
from sheet_files import sheet, write_sheets  # noqa: E402
from commands import folders  # noqa: E402


# ---- timers

def timer(longest, constraints=()):
    """A timer that `go` sets and that runs down to 0."""
    return sheet([("go", 0, 1), ("left", 0, longest)],
                 ["first left == 0",
                  "next left == if go then %d else ( if ( left gt 0 ) then ( left - 1 ) else 0 )" % longest] + list(constraints))


def expiring_timer(longest):
    return timer(longest, ["1 until ( left eq 1 )"])


def delay(highest, steps):
    """A gate that follows the highest level a number of steps later: few letters and a long window."""
    late = "( level eq %d )" % highest
    for _ in range(steps):
        late = "( 0 fby %s )" % late
    return sheet([("level", 0, highest), ("gate", 0, 1)], ["gate == %s" % late])


# ---- counters

def counter(steps, size):
    """A counter that goes on by a step of the engineer's choice and comes to its last value at some time."""
    return sheet([("step", 0, steps - 1), ("count", 0, size - 1)],
                 ["first count == 0", "next count == ( count + step ) % {}".format(size), "1 until ( count eq %d )" % (size - 1)])


def visits(places):
    """Eight of the places are visited at some time, in any order: few letters and many marks."""
    return sheet([("place", 1, places)], ["next place != place"] + ["1 until ( place eq %d )" % place for place in range(1, 9)])


# ---- interlocks

def interlock(highest, gates, filling=0):
    """Gates that a level opens and that exclude each other. Each filling line is a rule of 36 tokens that always holds."""
    names = ["a", "b", "c", "d", "e", "f", "g"][:gates]
    rules = ["( level ge %d ) -> a" % highest, "( level eq 0 ) -> not a", "( next level - level ) <= 1"]
    rules += ["%s -> not %s" % pair for pair in zip(names[1::2], names[2::2])]
    rules += ["( next %s ) -> ( %s or next %s )" % (after, before, before) for before, after in zip(names, names[1:])]
    always = "( ( ( a + b ) + ( level * 2 ) ) le ( ( %d + ( 3 * level ) ) + ( next a * b ) ) )" % (2 * highest + 2)
    return sheet([("level", 0, highest)] + [(name, 0, 1) for name in names], rules + ["%s == 1" % always] * filling)


# ---- grids with `until` (000, section 5.2): from one corner to the other

def grid(columns, rows, constraints=()):
    def moved(name):
        return "( ( next {0} - {0} ) * ( next {0} - {0} ) )".format(name)
    return sheet([("x", 1, columns), ("y", 1, rows)],
                 ["first x == 1", "first y == 1", "( %s + %s ) <= 1" % (moved("x"), moved("y")),
                  # a wall with one door
                  "( x eq %d ) -> ( y eq 2 )" % (columns // 2 + 1),
                  "1 until ( ( x eq %d ) and ( y eq %d ) )" % (columns, rows)] + list(constraints))


def grid_with_stop(columns, rows):
    """A corner on the near side of the wall is visited before the goal."""
    return grid(columns, rows, ["( ( x ne %d ) or ( y ne %d ) ) until ( ( x eq 1 ) and ( y eq %d ) )" % (columns, rows, rows)])


# ---- missionaries and cannibals (000, section 5.1): m and c count those on the left bank, side is the boat's

def missionaries(people, boat):
    direction = "( 1 - ( 2 * side ) )"
    return sheet([("m", 0, people), ("c", 0, people), ("side", 0, 1)],
                 ["first m == %d" % people, "first c == %d" % people, "first side == 0",
                  "next side == 1 - side",
                  "( ( m - next m ) * %s ) >= 0" % direction,
                  "( ( c - next c ) * %s ) >= 0" % direction,
                  "( ( ( m + c ) - next ( m + c ) ) * %s ) >= 1" % direction,
                  "( ( ( m + c ) - next ( m + c ) ) * %s ) <= %d" % (direction, boat),
                  # nobody outnumbers the missionaries of either bank
                  "m -> ( m ge c )", "( m ne %d ) -> ( c ge m )" % people,
                  "1 until ( ( m + c ) eq 0 )"])


# ---- chains: each place leads to one other, so that a row has one live successor among many letters

def chain(places):
    """From the first place to the last, one after the other."""
    return sheet([("place", 0, places)], ["first place == 0", "next place == if ( place lt %d ) then ( place + 1 ) else %d" % (places, places)])


def latched_chain(places):
    """A chain at whose end a lamp has to be as it was at first: rows with one lamp or the other are told apart at the last place only, one place a round."""
    return sheet([("place", 0, places), ("lamp", 0, 1)],
                 ["first place == 0", "next place == if ( place lt {0} ) then ( place + 1 ) else {0}".format(places),
                  "( place eq %d ) -> ( lamp eq first lamp )" % places])


def dying_ring(size):
    """A ring of places that are not met in their order, and a lamp that is needed at one of them and never lit: the dark places die one after the other.
    The size is a prime that 3 generates."""
    return sheet([("place", 1, size - 1), ("lamp", 0, 1)],
                 ["next place == ( place * 3 ) %% %d" % size, "next lamp == lamp", "( place eq 1 ) -> lamp"])


def countdown(highest):
    """A number that begins anywhere, goes down by one and comes to 0 at some time."""
    return sheet([("left", 0, highest)], ["next left == if ( left gt 0 ) then ( left - 1 ) else 0", "1 until ( left eq 0 )"])


def countup(highest):
    """The same the other way: rows are then met in the other order."""
    return sheet([("gone", 0, highest)], ["next gone == if ( gone lt {0} ) then ( gone + 1 ) else {0}".format(highest), "1 until ( gone eq %d )" % highest])


def shift_register(bits, highest=1):
    """What comes in goes from place to place."""
    names = ["a", "b", "c", "d", "e", "f", "g", "h"][:bits]
    return sheet([(name, 0, highest) for name in names], ["next %s == %s" % pair for pair in zip(names[1:], names)])


# ---- dense sheets: nearly every letter may follow every other

def dense(size, back):
    """Two numbers whose sum changes within bounds, with a memory of some steps."""
    late = "y"
    for _ in range(back):
        late = "( 0 fby %s )" % late
    return sheet([("x", 0, size), ("y", 0, 1)], ["( next x - x ) <= %d" % (size - 1), "( x eq %d ) -> %s" % (size, late)])


def rules(streams, highest):
    """Many short rules, each of two streams."""
    names = ["a", "b", "c", "d", "e", "f", "g", "h"][:streams]
    lines = []
    for i, left in enumerate(names):
        for right in names[i + 1:]:
            lines += ["( %s eq %d ) -> ( next %s ge %s )" % (left, highest, right, right)]
    return sheet([(name, 0, highest) for name in names], lines[:32])


def nots(highest, lines):
    """Long lines whose tokens all depend on the newest letter."""
    return sheet([("level", 0, highest)], ["%snext level >= 0" % ("not " * 27)] * lines)


def drawn(seed, streams, highest, count):
    """Rules drawn at random, of the same form for the same number."""
    draw = random.Random(seed)
    names = ["a", "b", "c", "d", "e", "f", "g", "h"][:streams]

    def side():
        word = draw.choice(names)
        return draw.choice(["%s", "next %s", "( 0 fby %s )", "( %s + 1 )"]) % word
    return sheet([(name, 0, highest) for name in names],
                 ["( %s ge %s ) -> ( %s le %s )" % (side(), side(), side(), side()) for _ in range(count)])


def sheets():
    for places in (8, 60, 500):
        yield "chain-%d" % places, chain(places)
    for places in (8, 60, 500):
        yield "latched-%d" % places, latched_chain(places)
    for size in (7, 43, 487):
        yield "dying-%d" % size, dying_ring(size)
    for highest in (15, 127, 1023):
        yield "countdown-%d" % highest, countdown(highest)
        yield "countup-%d" % highest, countup(highest)
    for bits, highest in ((4, 1), (8, 1), (5, 3)):
        yield "shift-%d-%d" % (bits, highest), shift_register(bits, highest)
    for size, back in ((7, 1), (31, 0), (500, 0)):
        yield "dense-%d-%d" % (size, back), dense(size, back)
    for streams, highest in ((3, 1), (4, 3), (5, 3)):
        yield "rules-%d-%d" % (streams, highest), rules(streams, highest)
    for highest, lines in ((7, 4), (127, 8), (1023, 4)):
        yield "nots-%d-%d" % (highest, lines), nots(highest, lines)
    for seed, streams, highest, count in ((4, 3, 1, 4), (11, 3, 3, 6), (7, 4, 3, 5)):
        yield "random-%d" % seed, drawn(seed, streams, highest, count)
    for longest in (7, 63, 511):
        yield "timer-%d" % longest, timer(longest)
    for longest in (31, 500):
        yield "expiring-%d" % longest, expiring_timer(longest)
    for highest, steps in ((3, 2), (1, 5), (6, 3)):
        yield "delay-%d-%d" % (highest, steps), delay(highest, steps)
    for steps, size in ((2, 8), (4, 32), (8, 128)):
        yield "counter-%d-%d" % (steps, size), counter(steps, size)
    for places in (8, 10, 14):
        yield "visits-%d" % places, visits(places)
    for highest, gates in ((1, 3), (3, 5), (7, 7)):
        yield "interlock-%d-%d" % (highest, gates), interlock(highest, gates)
    for filling in (1, 6, 23):
        yield "interlock-3-5-filled-%d" % filling, interlock(3, 5, filling)
    for columns, rows in ((4, 4), (11, 11), (33, 31)):
        yield "grid-%d-%d" % (columns, rows), grid(columns, rows)
        yield "stop-%d-%d" % (columns, rows), grid_with_stop(columns, rows)
    for people, boat in ((3, 2), (8, 4), (21, 4)):
        yield "missionaries-%d-%d" % (people, boat), missionaries(people, boat)


if __name__ == "__main__":
    write_sheets(pathlib.Path(*folders(__doc__, "directory")), sheets())
