"""Cases for the shortest course with the fewest changes: lent tables,
descriptions of streams, states and lengths of the list and the work room.  A
seed fully determines what is given."""

import random
from collections import namedtuple

from limits import MAGNITUDE, NO_ENTRY
from streams import Streams, streams_of

CourseCase = namedtuple("CourseCase",
                        "entries finals letters streams state room work")

N = NO_ENTRY
# The table of the sheet `a b|0 0|1 1|1 until ( a and ( 0 fby b ) )`.
SHEET = ((0, 1, 0, 1, 0, 1, 2, 2, 2, 2, 2, 2), (0, 0, 1), 4)
# Three letters by number order are 0 0 3; of least changes they are 0 1 1.
GREEDY = ((1, N, N, N, 2, 3, N, N, N, N, N, 4, N, 4, N, N, 4, 4, 4, 4),
          (0, 0, 0, 0, 1), 4)
# The letters 0 and 2, then 1 and 3, then any: all ways have one change or two.
CROSSED = ((1, N, 1, N, N, 2, N, 2, 3, 3, 3, 3, 3, 3, 3, 3),
           (0, 0, 0, 1), 4)
NAMES = ("a", "b", "c", "gate", "level", "weirgate", "y", "z")


def streams_with(sizes, kinds=None, lows=None):
    """Streams of so many values, all `set` and from 0 on if not said."""
    kinds = kinds or ("set",) * len(sizes)
    lows = lows or (0,) * len(sizes)
    highs = [low + size - 1 for low, size in zip(lows, sizes)]
    return streams_of(NAMES[:len(sizes)], lows, highs, kinds)


def plain_streams(letters):
    """One stream for the letters; two of two values for four letters, and for
    numbers of letters that no table of the cases has."""
    return streams_with((letters,) if letters in range(1, 2000) and letters != 4
                        else (2, 2))


def case_with(table, state, room, streams=None, work=None):
    """Without streams or work room said, they suffice."""
    entries, finals, letters = table
    return CourseCase(entries, finals, letters,
                      streams or plain_streams(letters), state, room,
                      len(entries) if work is None else work)


def chain(rows, letters, last):
    """Each row leads to the next by its last letter, and to itself by the
    others; the last row leads to itself."""
    entries = [min(row + 1, rows - 1) if letter == letters - 1 else row
               for row in range(rows) for letter in range(letters)]
    return tuple(entries), (0,) * (rows - 1) + (last,), letters


def forced(letters, course):
    """Each row leads on by one letter alone."""
    rows = len(course) + 1
    entries = [N] * (rows * letters)
    for row, letter in enumerate(course):
        entries[row * letters + letter] = row + 1
    return tuple(entries), (0,) * (rows - 1) + (1,), letters


def table_cases():
    """Worked cases, and each reason for a refusal by the table."""
    tables = [(SHEET, 0, 2), (SHEET, 0, 5), (SHEET, 0, 1), (SHEET, 0, 0),
              (SHEET, 1, 1), (SHEET, 1, 0), (SHEET, 2, 0), (SHEET, 2, 3),
              (SHEET, 3, 3), (SHEET, 2 ** 32 - 1, 3),
              (GREEDY, 0, 3), (GREEDY, 0, 2), (GREEDY, 2, 4), (GREEDY, 3, 4),
              (((N,), (0,), 1), 0, 2), (((N,), (0,), 1), 0, 0),
              (((N,), (1,), 1), 0, 0), (((N,), (1,), 1), 0, 2),
              (((0,), (0,), 1), 0, 1), (((0,), (1,), 1), 0, 1)]
    cases = [case_with(*case) for case in tables]
    entries, finals, letters = SHEET
    malformed = [
        (entries, finals, 0), (entries, finals, 3), (entries, finals, 12),
        (entries, finals, 2 ** 32 - 1), ((), (), 0), ((), (), 4), ((), (0,), 4),
        ((N,), (), 1), (entries[:-1], finals, letters),
        (entries + (0,), finals, letters),
        (entries, finals + (0,), letters), (entries, finals[:-1], letters),
        (entries + (0,) * 4, finals, letters),
        (entries, (0, 0, 2), letters), (entries, (2, 0, 1), letters),
        (entries, (0, 0, 255), letters), ((3,) + entries[1:], finals, letters),
        (entries[:-1] + (3,), finals, letters),
        (entries[:-1] + (N - 1,), finals, letters),
        (entries[:8] + (3,) + entries[9:], finals, letters)]
    cases += [case_with(table, state, room)
              for table in malformed for state, room in ((0, 3), (2, 0))]
    # Zero rows behind the used ones are rows: their letters lead to state 0.
    longer = (entries + (0,) * 8, finals + (0, 0), letters)
    cases += [case_with(longer, state, room)
              for state, room in ((3, 3), (3, 2), (4, 8), (5, 8))]
    return cases


def long_cases():
    """Chains, up to 4,096 rows and one more, and some of more letters than a
    sheet may have."""
    return [case_with(chain(300, 2, 1), 0, 300),
            case_with(chain(300, 2, 1), 1, 298),
            case_with(chain(300, 2, 1), 1, 297),
            case_with(chain(300, 2, 0), 0, 297),
            case_with(chain(4096, 1, 1), 0, 4095),
            case_with(chain(4096, 1, 1), 0, 4094),
            case_with(chain(4097, 1, 1), 4000, 100),
            case_with(chain(2, 1500, 1), 0, 1),
            case_with(chain(3, 1025, 1), 0, 3)]


def order_cases():
    """Which of equal courses is given, by kinds and by sizes."""
    pairs = [(one, other) for one in ("set", "read") for other in ("set", "read")]
    cases = [case_with(table, 0, 3, streams_with((2, 2), kinds))
             for table in (SHEET, GREEDY, CROSSED) for kinds in pairs]
    # Streams of one value never change; how far a value moves plays no part.
    cases += [case_with(table, 0, 3, streams_with(sizes))
              for table in (SHEET, GREEDY, CROSSED)
              for sizes in ((4,), (1, 4), (4, 1), (2, 1, 2), (1,) * 6 + (2, 2))]
    # Eight changes with each letter.
    swung = forced(256, (0, 255) * 12 + (0,))
    cases += [case_with(swung, 0, 25, streams_with((2,) * 8)),
              case_with(forced(8, (0, 7) * 150), 0, 300, streams_with((2,) * 3))]
    return cases


def stream_cases():
    """Each reason for a refusal by the streams or the work room, and what is
    not looked at."""
    plain = streams_with((2, 2))
    unfit = [plain._replace(count=count) for count in (0, 1, 3, 8, 9, 2 ** 32 - 1)]
    unfit += [plain._replace(lengths=(length, 1)) for length in (0, 2, 9, 255)]
    unfit += [plain._replace(names=(name, "b"), lengths=(len(name), 1))
              for name in ("A", "{", "`", "a1", "a b", "a\n", "\0", "if", "until",
                           "set", "read", "fby", "b", "abcdefgH")]
    unfit += [plain._replace(kinds=kinds)
              for kinds in ((2, 0), (0, 2), (255, 0))]
    unfit += [plain._replace(lows=lows, highs=highs) for lows, highs in (
        ((1, 0), (0, 1)), ((0, 0), (1, -1)), ((0, 0), (2, 1)), ((0, 0), (1, 0)),
        ((-MAGNITUDE - 1, 0), (-MAGNITUDE, 1)), ((0, MAGNITUDE), (1, MAGNITUDE + 1)),
        # products that wrap to 4 in 32 bits, and one beyond 64
        ((-500000000, 0), (573741824, 3)), ((0, 0), (2 ** 30, 3)),
        ((-MAGNITUDE, -MAGNITUDE), (MAGNITUDE, MAGNITUDE)))]
    fit = [plain._replace(names=names, lengths=lengths) for names, lengths in (
        (("abcdefgh", "abcdefg"), (8, 7)), (("abcdefgh", "abcdefgh"), (2, 3)),
        (("iffy", "sets"), (4, 4)), (("az\0\0zzzz", "za"), (2, 2)))]
    fit += [plain._replace(lows=lows, highs=highs) for lows, highs in (
        ((-MAGNITUDE, MAGNITUDE - 1), (-MAGNITUDE + 1, MAGNITUDE)), ((-7, 5), (-6, 6)))]
    # behind the streams
    fit += [Streams(2, ("a", "b", "a", "if"), (1, 1, 1, 9, 200), (0, 0, 5, 9),
                    (1, 1, 4, -9), (0, 1, 2, 255))]
    cases = [case_with(SHEET, 0, 3, streams) for streams in unfit + fit]
    endless = (SHEET[0], (0, 0, 0), 4)
    cases += [case_with(SHEET, state, room, plain, work)
              for state, room, work in ((0, 2, 12), (0, 2, 11), (0, 2, 13), (0, 2, 0),
                                        (2, 0, 11), (2, 0, 12), (0, 1, 11), (3, 0, 0))]
    cases += [case_with(endless, 0, room, streams, work) for room, work in ((0, 0), (3, 12))
              for streams in (plain, plain._replace(count=3))]
    # 1,024 letters and one more, and streams that do not make them
    course = (0, 1023)
    cases += [case_with(forced(1024, course), 0, 2, streams) for streams in (
        streams_with((1024,)), streams_with((2, 2, 2, 2, 2, 2, 4, 4)),
        streams_with((32, 32), ("read", "set")), streams_with((1023,)),
        streams_with((1025,)), streams_with((2,) * 8))]
    cases += [case_with(forced(1025, (0, 1024)), 0, 4, streams_with(sizes))
              for sizes in ((1025,), (5, 205))]
    return cases


def slow_table(rng, rows, letters):
    """Rows that lead at most one row on, and the last one final: courses are
    long, and there are many of them."""
    entries = [rng.choice((NO_ENTRY, rng.randrange(min(rows, row + 2)),
                           rng.randrange(min(rows, row + 2))))
               for row in range(rows) for _ in range(letters)]
    for row in range(rows - 1):
        if rng.random() < 0.95:
            entries[row * letters + rng.randrange(letters)] = row + 1
    return entries, [0] * (rows - 1) + [1]


def any_table(rng, rows, letters):
    entries = [rng.choice((NO_ENTRY, rng.randrange(rows), rng.randrange(rows)))
               for _ in range(rows * letters)]
    return entries, [int(rng.random() < 0.3) for _ in range(rows)]


def layered_table(rng, rows, letters):
    """Layers of two rows, each of which leads on by a few letters: there are
    many courses of equally few letters."""
    entries = [rng.choice((N, N, min(row // 2 * 2 + 2 + rng.randrange(2), rows - 1)))
               for row in range(rows) for _ in range(letters)]
    return entries, [0] * (rows - 1) + [1]


def sizes_for(rng, letters):
    """Sizes of streams that make the letters, some of them 1."""
    sizes = [1] * rng.choice((0, 0, 0, 1, 2))
    while letters > 1 or not sizes:
        size = rng.choice([n for n in range(1, letters + 1)
                           if letters % n == 0 and n <= max(2, letters)])
        if letters == 1 or size > 1:
            sizes.append(size)
            letters //= size
    rng.shuffle(sizes)
    return sizes


def damaged_streams(rng, streams):
    """The streams with one fault."""
    lengths, kinds, highs = (list(streams.lengths), list(streams.kinds),
                             list(streams.highs))
    place = rng.randrange(streams.count)
    fault = rng.randrange(5)
    if fault == 0:
        return streams._replace(count=streams.count + rng.choice((-1, 1)))
    if fault == 1:
        lengths[place] += rng.choice((-lengths[place], 1, 8))
    elif fault == 2:
        kinds[place] = rng.choice((2, 3, 255))
    elif fault == 3:
        highs[place] += rng.choice((-1, 1))
    else:
        return streams._replace(names=(streams.names[-1],) + streams.names[1:]
                                if streams.count > 1 else ("or",),
                                lengths=(streams.lengths[-1],) + streams.lengths[1:]
                                if streams.count > 1 else (2,))
    return streams._replace(lengths=tuple(lengths), kinds=tuple(kinds),
                            highs=tuple(highs))


def drawn_streams(rng, letters):
    """Streams that make the letters, now and then with a fault."""
    sizes = sizes_for(rng, letters)
    lows = [rng.choice((0, 0, -1, 7, -MAGNITUDE, MAGNITUDE + 1 - size))
            for size in sizes]
    kinds = [rng.choice(("set", "set", "read")) for _ in sizes]
    streams = streams_with(sizes, kinds, lows)
    names = rng.sample(NAMES, len(sizes))
    streams = streams._replace(names=tuple(names), lengths=tuple(map(len, names)))
    return damaged_streams(rng, streams) if rng.random() < 0.08 else streams


def small_table(rng):
    """A table of some rows, now and then malformed, a state and a length of
    the list."""
    rows, letters = rng.randrange(1, 9), rng.randrange(1, 5)
    draw = rng.choice((slow_table, slow_table, any_table))
    entries, finals = draw(rng, rows, letters)
    if rng.random() < 0.08:
        entries[rng.randrange(len(entries))] = rng.choice((rows, rows + 1, 65534))
    if rng.random() < 0.06:
        finals[rng.randrange(rows)] = rng.choice((2, 3, 255))
    if rng.random() < 0.04:
        finals.append(0)
    state = rng.choice((0, 0, rng.randrange(rows)))
    if rng.random() < 0.05:
        state = rows + rng.randrange(3)
    return (tuple(entries), tuple(finals), letters), state, rng.randrange(rows + 2)


def wide_table(rng):
    """A table of more letters, whose courses have several streams."""
    rows = rng.randrange(2, 9)
    letters = rng.choice((4, 6, 8, 8, 9, 12, 16, 24))
    draw = rng.choice((layered_table, layered_table, slow_table, any_table))
    entries, finals = draw(rng, rows, letters)
    return (tuple(entries), tuple(finals), letters), 0, rows - (rng.random() < 0.1)


def drawn_case(table, streams_rng):
    """The case of a drawn table, with drawn streams and work room."""
    (entries, finals, letters), state, room = table
    work = len(entries) + streams_rng.choice((0, 0, 0, 0, 0, 1, 5, -1))
    return case_with((entries, finals, letters), state, room,
                     drawn_streams(streams_rng, letters), work)


def random_case(rng):
    return drawn_case(rng.choice((small_table, wide_table))(rng), rng)


def course_cases(seed, count, wide):
    rng, streams_rng = random.Random(seed), random.Random("streams %d" % seed)
    return (table_cases() + long_cases()
            + [drawn_case(small_table(rng), streams_rng) for _ in range(count)]
            + order_cases() + stream_cases()
            + [drawn_case(wide_table(streams_rng), streams_rng)
               for _ in range(wide)])
