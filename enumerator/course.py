"""The shortest course from a state of a lent table to a final state, of these
the one with the fewest changes (document 02, S-3 and S-8)."""

import itertools
from collections import namedtuple

from limits import NO_ENTRY, TABLE_ROWS
from streams import could_be_accepted, described, make_letters

# `count` is the number of letters of the course, and `list` the lent list
# after the call.
CourseAnswer = namedtuple("CourseAnswer", "refusal count list")


def is_well_formed(entries, finals, letters):
    """Not "11 (here for any entry of the table, or final bytes that are not
    one 0 or 1 a row)"; a table without rows has no state."""
    rows = len(finals)
    return (letters > 0 and 0 < rows <= TABLE_ROWS
            and len(entries) == rows * letters
            and all(entry < rows or entry == NO_ENTRY for entry in entries)
            and all(byte in (0, 1) for byte in finals))


def changes(kinds, before, after):
    """"a change being a set stream whose value differs from the letter
    before; the first letter has none." """
    if before is None:
        return 0
    return sum(kind == "set" and value != other
               for kind, value, other in zip(kinds, before, after))


def best_course(entries, finals, values, kinds, state):
    """The letters of the course that is given, or None.  For each number of
    letters it holds, for each row that so many letters lead to and each last
    letter, the fewest changes, and of the records with so many the one that
    comes first in number order.  `values` has the values of each letter."""
    records = {(state, None): (0, ())}
    for _ in finals:
        ends = [found for (row, _), found in records.items()
                if finals[row] == 1]
        if ends:
            return min(ends)[1]
        longer = {}
        for (row, last), (total, record) in records.items():
            before = None if last is None else values[last]
            for letter, after in enumerate(values):
                entry = entries[row * len(values) + letter]
                if entry != NO_ENTRY:
                    found = (total + changes(kinds, before, after),
                             record + (letter,))
                    longer[entry, letter] = min(
                        longer.get((entry, letter), found), found)
        records = longer
    return None


def letters_of(streams):
    """The values of each letter, "the last stream fastest, values rising from
    the lowest"."""
    return list(itertools.product(*(range(stream.low, stream.high + 1)
                                    for stream in described(streams))))


def course(entries, finals, letters, streams, state, room, work):
    """"15, no final state can be reached from the state given, after 11 [..]
    and before 10 (a list too short for the course). The list is then zero."
    "Streams that no accepted sheet could have, or that do not make the table's
    letters, are 11. Work room is lent, one number for each entry of the table;
    less is 10." """
    zeros = (0,) * room
    if (not is_well_formed(entries, finals, letters)
            or state >= len(finals)
            or not could_be_accepted(streams)
            or not make_letters(streams, letters)):
        return CourseAnswer(11, 0, zeros)
    found = best_course(entries, finals, letters_of(streams),
                        [stream.kind for stream in described(streams)], state)
    if found is None:
        return CourseAnswer(15, 0, zeros)
    if room < len(found) or work < len(entries):
        return CourseAnswer(10, 0, zeros)
    return CourseAnswer(0, len(found), found + zeros[len(found):])
