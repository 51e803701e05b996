"""What the cases of calls with given tables share (document 02, S-9 and S-10):
tables written out, sheets compiled, each fault of a table or of its streams,
and tables and sheets that are drawn."""

from compiler import compile_sheet
from game_cases import sheet_text
from generate import (TEMPLATES, UNTIL_TEMPLATES, random_constraint,
                      sheet_bytes, spaced, template_constraint)
from given import GivenTable, given_of
from limits import MAGNITUDE, NO_ENTRY, SITUATIONS, TABLE_ROWS
from reading import read
from sluice import sluice
from streams import Streams, streams_of

N = NO_ENTRY
NAMES = ("a", "b", "c", "gate", "level", "weirgate")


def compiled_table(lines):
    """The table of a sheet that is accepted."""
    text = sheet_text(lines)
    refusal, sheet = read(text)
    compiled = compile_sheet(text, SITUATIONS)
    assert not refusal and not compiled.refusal, lines
    return given_of(sheet, compiled)


def rows_of_text(text):
    """The numbers of rows parted by `|`; N is 65,535."""
    return [[N if word == "N" else int(word) for word in row.split()]
            for row in text.split("|")]


def written_table(rows, finals, streams):
    """A table whose rows are written out, with a final byte for each."""
    entries = [entry for row in rows_of_text(rows) for entry in row]
    return GivenTable(tuple(entries), tuple(map(int, finals)),
                      len(rows_of_text(rows)[0]), streams)


def one_stream(name, size=2, kind="set", low=0):
    return streams_of((name,), (low,), (low + size - 1,), (kind,))


def cycle(rows, name, size=2, final=1):
    """The last letter leads to the next row, and from the last to the first;
    the others stay.  All rows are final, or none."""
    entries = [(row + 1) % rows if letter == size - 1 else row
               for row in range(rows) for letter in range(size)]
    return GivenTable(tuple(entries), (final,) * rows, size,
                      one_stream(name, size))


def chain(rows, name, size=2):
    """The last letter leads to the next row, the others stay; the last row,
    which alone is final, leads to itself."""
    entries = [min(row + 1, rows - 1) if letter == size - 1 else row
               for row in range(rows) for letter in range(size)]
    return GivenTable(tuple(entries), (0,) * (rows - 1) + (1,), size,
                      one_stream(name, size))


def with_zero_rows(given, count):
    """So many rows of room behind the used ones."""
    return given._replace(
        entries=given.entries + (0,) * (count * given.letters),
        finals=given.finals + (0,) * count)


def malformed_tables(given):
    """The table with each fault by itself: no letters, other letters, no rows,
    a part of a row, another number of final bytes, final bytes and entries
    that are none, and too many rows."""
    entries, finals, letters, streams = given
    rows = len(finals)
    single = streams._replace(count=1, lows=(0,) + streams.lows[1:],
                              highs=(0,) + streams.highs[1:])
    changed = [dict(letters=0), dict(letters=letters + 1),
               dict(letters=2 ** 32 - 1), dict(entries=(), finals=()),
               dict(entries=(), finals=(), letters=0), dict(entries=()),
               dict(finals=()), dict(entries=entries[:-1]),
               dict(entries=entries + (0,)), dict(finals=finals + (0,)),
               dict(finals=finals[:-1]), dict(entries=entries + (0,) * letters),
               dict(finals=(2,) + finals[1:]), dict(finals=finals[:-1] + (255,)),
               dict(entries=(rows,) + entries[1:]),
               dict(entries=entries[:-1] + (rows,)),
               dict(entries=entries[:-1] + (N - 1,)),
               dict(entries=(0,) * (TABLE_ROWS + 1), letters=1, streams=single,
                    finals=(1,) * (TABLE_ROWS + 1))]
    return [given._replace(**fields) for fields in changed]


def unfit_streams(streams):
    """The streams with each fault by itself: those that no accepted sheet
    could have, and those that do not make the letters."""
    names, lengths, lows, highs, kinds = streams[1:]
    count = streams.count
    changed = [dict(count=wrong) for wrong in (
        0, count - 1, count + 1, 8, 9, 2 ** 32 - 1)]
    changed += [dict(lengths=(length,) + lengths[1:])
                for length in (0, 2, 9, 255)]
    changed += [dict(names=(name,) + names[1:],
                     lengths=(len(name),) + lengths[1:])
                for name in ("A", "a1", "a b", "\0", "if", "until", "set",
                             "read", "fby", names[-1], "abcdefgH")]
    changed += [dict(kinds=kinds[:-1] + (kind,)) for kind in (2, 255)]
    changed += [dict(lows=(low,) + lows[1:], highs=(high,) + highs[1:])
                for low, high in (
                    (1, 0), (0, 2), (0, 0), (-MAGNITUDE - 1, -MAGNITUDE),
                    (MAGNITUDE, MAGNITUDE + 1), (-MAGNITUDE, MAGNITUDE),
                    # products with 2 and with 4 that wrap in 32 bits to 4
                    (-500000000, 2 ** 31 + 1 - 500000000),
                    (-500000000, 2 ** 30 - 500000000))]
    return [streams._replace(**fields) for fields in changed]


def spelled_otherwise(streams):
    """The same streams: bytes behind the names, and places behind the streams,
    are not looked at."""
    names = tuple((name[:length] + "\0zq")[:8] for name, length
                  in zip(streams.names, streams.lengths))
    room = 8 - streams.count
    return Streams(streams.count, names + ("if",) * room,
                   streams.lengths + (200,) * room, streams.lows + (5,) * room,
                   streams.highs + (-5,) * room, streams.kinds + (9,) * room)


# ---- drawn tables

def drawn_streams(rng, pool):
    """Some of the streams of a pool, in any order."""
    count = rng.randrange(1, len(pool) + 1)
    return tuple(rng.sample(pool, count))


def drawn_pool(rng, most):
    """Streams with at most so many letters together."""
    pool, letters = [], 1
    for name in rng.sample(NAMES, rng.choice((1, 2, 2, 3))):
        size = min(rng.choice((1, 2, 2, 3)), most // letters)
        low = rng.choice((0, 0, -1, 7, -MAGNITUDE, MAGNITUDE + 1 - size))
        pool.append((name, low, low + size - 1, rng.choice(("set", "read"))))
        letters *= size
    return pool


def letters_made(drawn):
    total = 1
    for _, low, high, _ in drawn:
        total *= high - low + 1
    return total


def drawn_table(rng, drawn, most_rows=4):
    """A table over the streams: mostly the final rows stand last and lead to
    final rows only, as in a compiled table; now and then rows are final as it
    comes, and now and then there are zero rows behind."""
    rows, letters = rng.randrange(1, most_rows + 1), letters_made(drawn)
    settled = rng.random() < 0.8
    first_final = rng.randrange(rows) if settled else 0
    missing = rng.choice((0, 0.1, 0.2, 0.4))
    entries = [NO_ENTRY if rng.random() < missing
               else rng.randrange(first_final if row >= first_final else 0,
                                  rows)
               for row in range(rows) for _ in range(letters)]
    finals = [int(row >= first_final) if settled else rng.randrange(2)
              for row in range(rows)]
    given = GivenTable(tuple(entries), tuple(finals), letters,
                       streams_of(*zip(*drawn)))
    return with_zero_rows(given, rng.choice((0, 0, 0, 1, 2)))


def damaged(rng, given):
    """The table, now and then with a fault of its own or of its streams."""
    chance = rng.random()
    if chance < 0.04:
        return rng.choice(malformed_tables(given))
    if chance < 0.08:
        return given._replace(streams=rng.choice(unfit_streams(given.streams)))
    if chance < 0.2:
        return given._replace(streams=spelled_otherwise(given.streams))
    return given


def altered(rng, drawn):
    """The streams, one of them with another end or kind."""
    place = rng.randrange(len(drawn))
    name, low, high, kind = drawn[place]
    other = rng.choice(((name, low + 1, high + 1, kind),
                        (name, low, high + 1, kind),
                        (name, low, high, "read" if kind == "set" else "set")))
    if other[2] > MAGNITUDE:
        other = (name, low - 1, high - 1, kind)
    return drawn[:place] + (other,) + drawn[place + 1:]


# ---- drawn sheets

def drawn_lines(rng, drawn):
    """The lines of a sheet over the streams."""
    names = [stream[0] for stream in drawn]
    lines = [" ".join(map(str, line)) for line in zip(*drawn)]
    for templates, chance in ((TEMPLATES, 0.5), (UNTIL_TEMPLATES, 0.5)):
        if rng.random() < chance:
            lines.append(spaced(rng, template_constraint(rng, names,
                                                         templates)))
    if rng.random() < 0.4:
        lines.append(spaced(rng, random_constraint(rng, names, 1)))
    return lines


def sheet_pool(rng):
    """Streams with few letters together, of small values."""
    pool, letters = [], 1
    for name in rng.sample(NAMES, rng.choice((1, 2, 2, 3))):
        size = min(rng.choice((1, 2, 2, 3)), 12 // letters)
        low = rng.choice((0, 0, 0, -1))
        pool.append((name, low, low + size - 1, rng.choice(("set", "read"))))
        letters *= size
    return pool


def drawn_sheet(rng, drawn):
    """The bytes of a sheet over the streams, mostly one with a table."""
    text = sheet_bytes(drawn_lines(rng, drawn))
    while rng.random() < 0.95 and sluice(text).startswith(b"refused "):
        text = sheet_bytes(drawn_lines(rng, drawn))
    return text
