"""Cases for the step: tables as bytes, letters, running places and letters.
A seed fully determines what is given."""

import random
from collections import namedtuple

from limits import NO_ENTRY, STEPS
from step import Place, table_bytes

StepCase = namedtuple("StepCase", "table letters place letter")


def random_table(rng, rows, letters):
    """Entries that are row numbers, missing, or neither."""
    choices = (lambda: rng.randrange(rows),) * 6 + (
        lambda: NO_ENTRY, lambda: NO_ENTRY, lambda: rows,
        lambda: rng.choice((rows + 1, 4095, 4096, 65534)))
    return [[rng.choice(choices)() for _ in range(letters)]
            for _ in range(rows)]


def random_case(rng):
    """A step in a random table, now and then outside it."""
    rows, letters = rng.randrange(1, 5), rng.randrange(1, 5)
    state = rng.randrange(rows) if rng.random() < 0.9 else rows + rng.randrange(3)
    letter = (rng.randrange(letters) if rng.random() < 0.9
              else letters + rng.randrange(3))
    steps = rng.choice((0, 1, 77, 65535, STEPS - 2, STEPS - 1, STEPS))
    return StepCase(table_bytes(random_table(rng, rows, letters)), letters,
                    Place(state, steps), letter)


def chosen_cases():
    """Each reason for refusal 11 and 12 by itself, and the answers beside
    them."""
    table = table_bytes([[1, NO_ENTRY], [2, 0]])
    word = 2 ** 64
    start = Place(0, 5)
    cases = [
        (table, 2, start, 0), (table, 2, start, 1),
        (table, 2, Place(1, 5), 0), (table, 2, Place(1, 5), 1),
        (table, 2, Place(2, 5), 0), (table, 2, start, 2),
        (table, 0, start, 0), (b"", 0, start, 0), (b"", 1, start, 0),
        (b"", word - 1, start, 0), (table, word - 1, start, 0),
        (table, word // 2, start, 0), (table, word // 4, start, 0),
        (table[:-1], 2, start, 0), (table[:-2], 2, start, 0),
        (table[:-4], 2, start, 1), (table + b"\0", 2, start, 0),
        (table + b"\0\0", 2, start, 0), (table, 1, Place(3, 0), 0),
        (table, 1, Place(2, 0), 0), (table, 1, Place(1, 0), 0),
        (table, 4, start, 0), (table, 4, start, 1), (table, 4, start, 3),
        (table, 3, start, 0), (table, 8, start, 0), (table, 5, start, 0),
        (table, 2, Place(2 ** 32 - 1, 0), 0), (table, 2, start, word - 1),
        (table, 2, Place(word - 1, 0), 0), (table, 2, Place(0, 0), 2 ** 32),
        (b"\0", 1, start, 0), (b"\0\0", 1, start, 0),
        (b"\xff\xff", 1, start, 0), (b"\1\0", 1, start, 0),
        (b"\0\1", 1, start, 0), (b"\xff\0", 1, start, 0),
        (b"\xff\xfe", 1, start, 0), (b"\xfe\xff", 1, start, 0),
        (table, 2, Place(1, STEPS), 1), (table, 2, Place(1, STEPS - 1), 1),
        (table, 2, Place(0, STEPS), 1), (table, 2, Place(2, STEPS), 1),
    ]
    return [StepCase(*case) for case in cases]


def many_rows_cases():
    """Tables of 4,096 and 4,097 rows."""
    def falling(rows):
        return table_bytes([[rows - 1 - row] for row in range(rows)])

    return [StepCase(falling(4096), 1, Place(0, 0), 0),
            StepCase(falling(4096), 1, Place(4095, 0), 0),
            StepCase(falling(4096), 1, Place(4096, 0), 0),
            StepCase(falling(4097), 1, Place(0, 0), 0),
            StepCase(falling(4097), 1, Place(4096, 0), 0)]


def step_cases(seed, count):
    rng = random.Random(seed)
    return (chosen_cases() + many_rows_cases()
            + [random_case(rng) for _ in range(count)])
