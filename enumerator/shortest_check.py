"""The second route for `shortest`: from the table that `sluice` prints and the
kinds that the sheet's fourth line says, of all lines of values that lead to a
final state, of no line, of one, of two and so on, those with the fewest values
that change in set streams, and of these the first; compared with `shortest.py`
on drawn sheets."""

from functools import lru_cache

from generate import random_kinds_sheets, random_sheets
from replay_check import STARTS, number_of
from shortest import shortest
from sluice import sluice


class Printed:
    """A printed table: for each state whether it is final, and its lines in
    order, the values with the next state."""

    def __init__(self, text):
        heading, *lines = text.decode().splitlines()
        self.names, self.finals, self.ways = heading.split()[2:-1], {}, {}
        for line in lines:
            state, final, *values, following = line.split()
            self.finals[int(state)] = final == "1"
            self.ways.setdefault(int(state), []).append((tuple(values), int(following)))


def read_places(sheet_text):
    """The places of the streams whose changes do not count."""
    words = (sheet_text.decode().split("\n") + [""] * 4)[3].split()
    return [place for place, word in enumerate(words) if word == "read"
            and set(words) <= {"read", "set"}]


def shortest_by_table(sheet_text, start=None):
    text = sluice(sheet_text)
    if text.startswith(b"refused "):
        return text
    table = Printed(text)
    state = 0 if start is None else number_of(start)
    if state not in table.finals:
        return b"refused 11\n"
    unset = read_places(sheet_text)

    @lru_cache(maxsize=None)
    def first_lines(row, length, before):
        """The fewest changes of so many lines that lead from a row to a final
        state, after the values before, and the first such lines."""
        if length == 0:
            return (0, ()) if table.finals[row] else None
        found = None
        for values, following in table.ways[row]:
            rest = first_lines(following, length - 1, values)
            if rest is not None:
                moved = sum(value != old and place not in unset for place, (value, old)
                            in enumerate(zip(values, before or values)))
                if found is None or moved + rest[0] < found[0]:
                    found = moved + rest[0], (values,) + rest[1]
        return found

    found = (first_lines(state, length, None) for length in range(len(table.finals)))
    lines = next(lines for lines in found if lines is not None)[1]
    return "".join(" ".join(line) + "\n" for line in (table.names, *lines)).encode()


def drawn_case(rng):
    draw = rng.choice((random_sheets, random_kinds_sheets))
    return draw(rng.randrange(10 ** 9), 1)[0][1], rng.choice(STARTS)


def difference(rng, drawn=None):
    """A drawn sheet and start on which both routes differ, or None."""
    case = drawn or drawn_case(rng)
    return None if shortest(*case) == shortest_by_table(*case) else case
