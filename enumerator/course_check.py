"""The second route for `course`: all records of no letter, of one, of two and
so on that can be followed by steps on the bytes of the table, each with its
changes counted stream by stream over the whole record; streams are judged by
reading a sheet that has them.  Compared with `course.py` on drawn tables."""

from course import course
from course_cases import random_case
from limits import NO_ENTRY, STEP_REFUSED, STREAMS, TABLE_ROWS
from reading import letter_count, read
from step import step, table_bytes
from streams import KINDS, places

RECORDS = 4000


def sheet_with(streams):
    """A sheet without constraints that has the streams, or None if the text
    does not say them."""
    if streams.count > STREAMS:
        return None
    names, lengths, lows, highs, kinds = (
        own[:streams.count] for own in places(streams))
    names = [name.ljust(8, "\0")[:length].ljust(length, "?")
             for name, length in zip(names, lengths)]
    words = [KINDS.get(kind, "unknown") for kind in kinds]
    lines = (names, lows, highs, words)
    text = "\n".join(" ".join(map(str, line)) for line in lines)
    refusal, sheet = read(text.encode("latin-1"))
    return None if refusal or sheet.names != names else sheet


def total_changes(letters, sheet, record):
    """For each set stream, how often its value differs from the one before;
    the values are taken from the letters' numbers, the last stream first."""
    total, stride = 0, 1
    for low, high, kind in reversed(list(zip(sheet.lows, sheet.highs,
                                             sheet.kinds))):
        size = high - low + 1
        course_of_stream = [letter // stride % size for letter in record]
        if kind == "set":
            total += sum(one != other for one, other
                         in zip(course_of_stream, course_of_stream[1:]))
        stride *= size
    assert stride == letters
    return total


def longer_records(table, letters, records):
    """Each record with one letter more, and the state that it leads to."""
    found = []
    for record, state in records:
        for letter in range(letters):
            following = step(table, letters, state, letter)
            if following < STEP_REFUSED:
                found.append((record + (letter,), following))
    return found


def first_record(table, finals, letters, sheet, state):
    """The first record that leads to a final state, by its length, then by its
    changes, then by its letters; a course of fewest letters meets no state
    twice.  The second answer is that there are too many records."""
    records = [((), state)]
    for _ in finals:
        ends = [record for record, last in records if finals[last] == 1]
        if ends:
            return min(ends, key=lambda record: (
                total_changes(letters, sheet, record), record)), False
        records = longer_records(table, letters, records)
        if len(records) > RECORDS:
            return None, True
    return None, False


def is_malformed(case):
    """Some entry would be refused by a step, or the final bytes are not one 0
    or 1 a row."""
    rows, rest = divmod(len(case.entries), case.letters)
    beyond = any(rows <= entry != NO_ENTRY for entry in case.entries)
    return (rest or rows == 0 or rows > TABLE_ROWS or beyond
            or rows != len(case.finals) or not set(case.finals) <= {0, 1})


def by_records(case):
    """The refusal and the letters, or None if there are too many records."""
    sheet = sheet_with(case.streams)
    if (is_malformed(case) or not case.state < len(case.finals)
            or sheet is None or letter_count(sheet) != case.letters):
        return 11, ()
    table = table_bytes([case.entries])
    record, too_many = first_record(table, case.finals, case.letters, sheet,
                                    case.state)
    if too_many:
        return None
    if record is None:
        return 15, ()
    is_short = len(record) > case.room or case.work < len(case.entries)
    return (10, ()) if is_short else (0, record)


def difference(rng):
    """A drawn case on which both routes differ, or None."""
    case = random_case(rng)
    found = by_records(case)
    while found is None:
        case = random_case(rng)
        found = by_records(case)
    answer, (refusal, record) = course(*case), found
    zeros = (0,) * (case.room - len(record))
    if answer == (refusal, len(record), record + zeros):
        return None
    return case
