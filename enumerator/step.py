"""The step on the bytes of a table, and the running place."""

from collections import namedtuple

from limits import NO_ENTRY, STEP_REFUSED, STEPS, TABLE_ROWS

# "The running place is one record that each step changes: the state and the
# steps taken (at most 4,294,967,295; the count then stays)."
Place = namedtuple("Place", "state steps")


def table_bytes(entries):
    """"two bytes an entry, low first" """
    return bytes(byte for row in entries for entry in row
                 for byte in (entry % 256, entry // 256))


def step(table, letters, state, letter):
    """The next state, or 65,536 plus the refusal.  Refusal 11: "no letters, a
    table length that is not whole rows or is over 4,096 rows, a state or
    letter outside, or the entry to be followed is neither a row's number nor
    65,535."  Refusal 12: "the entry is 65,535." """
    if letters == 0 or len(table) % (2 * letters) != 0:
        return STEP_REFUSED + 11
    rows = len(table) // (2 * letters)
    if rows > TABLE_ROWS or state >= rows or letter >= letters:
        return STEP_REFUSED + 11
    start = 2 * (state * letters + letter)
    entry = table[start] + 256 * table[start + 1]
    if entry == NO_ENTRY:
        return STEP_REFUSED + 12
    if entry >= rows:
        return STEP_REFUSED + 11
    return entry


def move(table, letters, place, letter):
    """The answer of a step from the running place, and the place after it.
    A refused step leaves the place as it was."""
    answer = step(table, letters, place.state, letter)
    if answer >= STEP_REFUSED:
        return answer, place
    return answer, Place(answer, min(place.steps + 1, STEPS))
