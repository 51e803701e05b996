"""Writes the sheets of the benchmark of play tables, with a list of their sizes.

    python3 bench/game/sheets.py DIRECTORY

The files and the list are those of bench/sheet_files.py.
"""

import pathlib
import sys

sys.path.insert(0, str(pathlib.Path(__file__).resolve().parents[1]))
from sheet_files import sheet, write_sheets  # noqa: E402
from commands import folders  # noqa: E402


def countdown(values):
    """A gate that the keeper lets down notch by notch, to 0 at some time. One choice."""
    return sheet([("x", 0, values - 1, "set")], ["next x <= x", "next x >= x - 1", "1 until ( x eq 0 )"])


def countup(values):
    """The same upwards."""
    return sheet([("x", 0, values - 1, "set")], ["next x >= x", "next x <= x + 1", "1 until ( x eq %d )" % (values - 1)])


def gauged_countdown(values):
    """The river says whether two notches at a time are allowed."""
    return sheet([("r", 0, 1, "read"), ("x", 0, values - 1, "set")], ["next x <= x", "next x >= ( x - 1 ) - r", "1 until ( x eq 0 )"])


def basin(inflows, levels):
    """A basin into which the river lets water, and which the keeper's gate drains to its bottom at some time."""
    more = "( level + inflow )"
    return sheet([("inflow", 0, inflows - 1, "read"), ("gate", 0, 1, "set"), ("level", 0, levels - 1, "set")],
                 ["first level == %d" % (levels // 2),
                  "next level == if ( gate and ( %s lt %d ) ) then 0 else ( %s - ( %d * gate ) )" % (more, inflows, more, inflows),
                  "1 until ( level eq 0 )"])


def delayed(values):
    """The gate repeats what the gauge was one time before: every choice has one answer."""
    return sheet([("r", 0, values - 1, "read"), ("g", 0, values - 1, "set")], ["g == 0 fby r"])


def interlocked(highest, gates):
    """Gates that a gauge opens and that exclude each other: many letters, few states."""
    names = ["a", "b", "c", "d", "e", "f", "g"][:gates]
    rules = ["( level ge %d ) -> a" % highest, "( level eq 0 ) -> not a"]
    rules += ["%s -> not %s" % pair for pair in zip(names[1::2], names[2::2])]
    rules += ["( next %s ) -> ( %s or next %s )" % (after, before, before) for before, after in zip(names, names[1:])]
    return sheet([("level", 0, highest, "read")] + [(name, 0, 1, "set") for name in names], rules)


def doomed(values):
    """The gate may rise with the gauge alone, so that the river can prevent it: 16."""
    return sheet([("r", 0, 1, "read"), ("x", 0, values - 1, "set")], ["next x <= x + r", "( first x ) == 0", "1 until ( x eq %d )" % (values - 1)])


def sheets():
    for values in (30, 250, 1000):
        yield "countdown-%d" % values, countdown(values)
    for values in (30, 1000):
        yield "countup-%d" % values, countup(values)
    for values in (30, 500):
        yield "gauged-countdown-%d" % values, gauged_countdown(values)
    for inflows, levels in ((2, 8), (4, 100)):
        yield "basin-%d-%d" % (inflows, levels), basin(inflows, levels)
    for values in (5, 30):
        yield "delayed-%d" % values, delayed(values)
    for highest, gates in ((3, 5), (7, 7)):
        yield "interlocked-%d-%d" % (highest, gates), interlocked(highest, gates)
    yield "doomed-500", doomed(500)


if __name__ == "__main__":
    write_sheets(pathlib.Path(*folders(__doc__, "directory")), sheets())
