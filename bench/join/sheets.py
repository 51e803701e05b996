"""Writes the pairs of sheets of the benchmark of joins, with a list of their sizes.

    python3 bench/join/sheets.py DIRECTORY

NAME.left and NAME.right are two sheets, and NAME.single one sheet over the joined streams
with the rules of both. The file `list` has a line for each pair: its name, then letters and
situations of the left sheet, of the right one, and of the single one. The plain C compile
counts situations; 0 stands for more than 4,096 in the single sheet. Another sheet that it
refuses stops the run.
"""

import pathlib
import sys

sys.path.insert(0, str(pathlib.Path(__file__).resolve().parents[1]))
from calls import from_sources  # noqa: E402
from commands import folders  # noqa: E402
from sheet_files import PLAIN_COMPILE, compiled, letters_of, sheet  # noqa: E402


def gauge(highest):
    return ("level", 0, highest, "read")


def weirs(highest, notches):
    """Two weirs with one gauge, each with a gate of so many notches that moves by one notch from time to time, and follows the gauge one time later."""
    def weir(gate, open_at):
        return [gauge(highest), (gate, 0, notches - 1, "set")], [
            "next %s <= %s + 1" % (gate, gate), "next %s >= %s - 1" % (gate, gate),
            "( level ge %d ) -> ( ( next %s ) ge %s )" % (open_at, gate, gate)]
    return weir("upper", highest), weir("lower", highest - 1)


def countdowns(values):
    """Two gates apart from each other, each let down notch by notch, to 0 at some time."""
    return tuple(([(name, 0, values - 1, "set")], ["next %s <= %s" % (name, name), "next %s >= %s - 1" % (name, name), "1 until ( %s eq 0 )" % name])
                 for name in "xy")


def delayed(values):
    """Two gates that repeat what the gauge was one time before and two times before."""
    return (([("r", 0, values - 1, "read"), ("g", 0, values - 1, "set")], ["g == 0 fby r"]),
            ([("r", 0, values - 1, "read"), ("h", 0, values - 1, "set")], ["h == 0 fby ( 0 fby r )"]))


def clocks(left, right):
    """Two clocks in step, beside a stream that is free."""
    def clock(name, values):
        return [("free", 0, 7, "set"), (name, 0, values - 1, "set")], ["%s == 0 fby ( ( %s + 1 ) %% %d )" % (name, name, values)]
    return clock("x", left), clock("y", right)


def same_streams(values):
    """Two sets of rules over the same streams: each moves one of two gates, and both are open at some time."""
    streams = [("a", 0, values - 1, "set"), ("b", 0, values - 1, "set")]
    return ((streams, ["next a <= a + 1", "next a >= a - 1", "1 until ( a eq %d )" % (values - 1)]),
            (streams, ["next b <= b + 1", "next b >= b - 1", "1 until ( b eq %d )" % (values - 1)]))


def pairs():
    yield "weirs-3-8", weirs(3, 8)
    yield "weirs-3-16", weirs(3, 16)
    for values in (8, 30):
        yield "countdowns-%d" % values, countdowns(values)
    for values in (4, 6):
        yield "delayed-%d" % values, delayed(values)
    yield "clocks-9-10", clocks(9, 10)
    for values in (6, 32):
        yield "same-streams-%d" % values, same_streams(values)


def single(left, right):
    own = [name for name, *_ in left[0]]
    return sheet(left[0] + [stream for stream in right[0] if stream[0] not in own], left[1] + right[1])


def main(directory):
    directory.mkdir(parents=True, exist_ok=True)
    function = from_sources("libplain.so", PLAIN_COMPILE, "plain_compile")
    lines = []
    for name, (left, right) in pairs():
        numbers = []
        for ending, text in (("left", sheet(*left)), ("right", sheet(*right)), ("single", single(left, right))):
            (directory / ("%s.%s" % (name, ending))).write_text(text)
            answer = compiled(function, text, letters_of(text))
            if answer.refusal and (ending, answer.refusal) != ("single", 8):
                sys.exit("%s.%s is refused by %d" % (name, ending, answer.refusal))
            numbers += [letters_of(text), answer.situations]
        lines.append(" ".join(map(str, (name, *numbers))) + "\n")
    (directory / "list").write_text("".join(lines))


if __name__ == "__main__":
    main(pathlib.Path(*folders(__doc__, "directory")))
