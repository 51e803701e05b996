"""Tables that a host gives to a call, each with a description of its streams
(document 02, S-9 and S-10)."""

import itertools
from collections import namedtuple

from course import is_well_formed
from streams import could_be_accepted, make_letters, streams_of

# entries: row after row; finals: the final bytes; letters: how many entries
# make a row.
GivenTable = namedtuple("GivenTable", "entries finals letters streams")


def is_fit(given):
    """Not "a malformed table, or one without rows, is 11, as in S-3 and S-8",
    which is 11 also for "Streams that no accepted sheet could have, or that do
    not make the table's letters"."""
    return (is_well_formed(given.entries, given.finals, given.letters)
            and could_be_accepted(given.streams)
            and make_letters(given.streams, given.letters))


def row_of(given, row):
    return given.entries[row * given.letters:(row + 1) * given.letters]


def letters_over(described):
    """The values of each letter over streams, in the order of their numbers."""
    return list(itertools.product(*(range(stream.low, stream.high + 1)
                                    for stream in described)))


def given_of(sheet, compiled):
    """The used rows of a compile, with the sheet's streams."""
    return GivenTable(tuple(entry for row in compiled.entries for entry in row),
                      tuple(compiled.finals), len(compiled.entries[0]),
                      streams_of(*sheet[:4]))
