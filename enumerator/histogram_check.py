"""The second route for `histogram`: a record read byte by byte, each line as a
letter's number, and the lines of a value as those of its letters; compared with
`histogram.py` on drawn records. What is printed is then read back: each
stream's counts add up to the total, and a record in two parts has the sums of
both."""

from collections import Counter

from histogram import histogram
from reading import letter_count, read
from replay_check import SHEETS, by_bytes, drawn_case, number_of

# Sheets that no compile accepts are counted too: the first is 9, the second 10.
UNSOLVED = (b"x\n0\n1\nnext x == x + 1", b"x\n0\n1023\nnext x == x")


def letter_of(sheet, tokens, barred):
    """13 or 14, or 0 and the number of the letter, "with the last stream
    fastest"."""
    values = [number_of(token) for token in tokens]
    if barred or len(values) != len(sheet.names) or None in values:
        return 13, None
    number = 0
    for low, value, high in zip(sheet.lows, values, sheet.highs):
        if not low <= value <= high:
            return 14, None
        number = number * (high - low + 1) + value - low
    return 0, number


def histogram_by_letters(sheet_text, record):
    refusal, sheet = read(sheet_text)
    if refusal:
        return b"refused %d\n" % refusal
    lines = by_bytes(record)
    if not lines or lines[0][1] or lines[0][0] != [name.encode() for name in sheet.names]:
        return b"refused 13\n"
    counts, total = Counter(), 0
    for tokens, barred in lines[1:]:
        fault, number = letter_of(sheet, tokens, barred)
        if fault:
            return b"refused %d\n" % fault
        counts[number] += 1
        total += 1
    out, behind = b"stream value lines\n", letter_count(sheet)
    for name, low, high in zip(sheet.names, sheet.lows, sheet.highs):
        size = high - low + 1
        behind //= size
        for value in range(size):
            held = sum(count for number, count in counts.items() if number // behind % size == value)
            out += b"%s %d %d\n" % (name.encode(), low + value, held)
    return out + b"total %d\n" % total


def read_back(printed):
    """The counts of each name and value, and the total; none of a refusal."""
    lines = [line.split() for line in printed.splitlines()]
    if lines[0][0] == b"refused":
        return None
    return {(name, int(value)): int(count) for name, value, count in lines[1:-1]}, int(lines[-1][1])


def adds_up(printed):
    counts, total = read_back(printed)
    names = {name for name, _ in counts}
    return all(sum(count for (of, _), count in counts.items() if of == name) == total for name in names)


def is_sum(whole, first, second):
    (all_counts, total), (one, ones), (two, twos) = map(read_back, (whole, first, second))
    return total == ones + twos and all(all_counts[key] == one[key] + two[key] for key in all_counts)


def cut_record(rng, record):
    """A record in two parts at a line's end, the names before both."""
    lines = record.split(b"\n")
    cut = rng.randrange(1, len(lines) + 1)
    return b"\n".join(lines[:cut]), b"\n".join(lines[:1] + lines[cut:])


def drawn_histogram(rng):
    sheet, record, _ = drawn_case(rng)
    if rng.random() < 0.2:
        sheet = rng.choice(UNSOLVED)
    if rng.random() < 0.5:
        record = lawful_record(rng, sheet)
    return sheet, record


def lawful_record(rng, sheet_text):
    """Lines in the ranges of the sheet, or the names of the first sheet."""
    refusal, sheet = read(sheet_text)
    if refusal:
        return SHEETS[0].split(b"\n")[0]
    lines = [b" ".join(b"%d" % rng.randint(low, high) for low, high in zip(sheet.lows, sheet.highs))
             for _ in range(rng.randrange(12))]
    return b"\n".join([" ".join(sheet.names).encode(), *lines])


def difference(rng, drawn=None):
    """A drawn case on which both routes differ, or whose counts do not add up,
    or None."""
    sheet, record = drawn or drawn_histogram(rng)
    printed = histogram(sheet, record)
    if printed != histogram_by_letters(sheet, record):
        return sheet, record
    if printed.startswith(b"refused"):
        return None
    parts = [histogram(sheet, part) for part in cut_record(rng, record.rstrip(b"\n"))]
    return None if adds_up(printed) and is_sum(printed, *parts) else (sheet, record)
