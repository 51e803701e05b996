"""Streams as a host describes them (document 02, S-8): how many they are, and
eight places for names, lengths of names, lowest and highest values, and kinds.
What stands behind `count` places, and behind a name, is not looked at."""

from collections import namedtuple
from math import prod

from grammar import RESERVED, has_name_form
from limits import LETTERS, MAGNITUDE, NAME_BYTES, STREAMS

# Lists may hold fewer than eight places; the others are zero then.  A name is
# a text of at most eight bytes.
Streams = namedtuple("Streams", "count names lengths lows highs kinds")
Stream = namedtuple("Stream", "name low high kind")

# The numbers by which a description says the kinds.
KINDS = {0: "set", 1: "read"}


def places(streams):
    """The eight places of each list."""
    names, *numbers = streams[1:]
    return [tuple(names) + ("",) * (STREAMS - len(names))] + [
        tuple(own) + (0,) * (STREAMS - len(own)) for own in numbers]


def described(streams):
    """The streams, one after the other; None stands for a name that is longer
    than its place, and for a number that is no kind's."""
    return [Stream(name.ljust(NAME_BYTES, "\0")[:length]
                   if length <= NAME_BYTES else None, low, high,
                   KINDS.get(kind))
            for name, length, low, high, kind
            in list(zip(*places(streams)))[:streams.count]]


def letter_values(streams):
    """How many values a letter can have in each stream."""
    return [stream.high - stream.low + 1 for stream in described(streams)]


def could_be_accepted(streams):
    """Not "Streams that no accepted sheet could have": bounds of names, ranges
    and letters as in a sheet."""
    if not 1 <= streams.count <= STREAMS:
        return False
    all_streams = described(streams)
    names = [stream.name for stream in all_streams]
    return (len(set(names)) == len(names)
            and all(name is not None and has_name_form(name)
                    and name not in RESERVED for name in names)
            and all(stream.kind is not None for stream in all_streams)
            and all(-MAGNITUDE <= stream.low <= stream.high <= MAGNITUDE
                    for stream in all_streams)
            and prod(letter_values(streams)) <= LETTERS)


def make_letters(streams, letters):
    """Not streams "that do not make the table's letters"."""
    return prod(letter_values(streams)) == letters


def streams_of(names, lows, highs, kinds):
    """The description of a sheet's streams."""
    numbers = {kind: number for number, kind in KINDS.items()}
    return Streams(len(names), tuple(names), tuple(map(len, names)),
                   tuple(lows), tuple(highs),
                   tuple(numbers[kind] for kind in kinds))
