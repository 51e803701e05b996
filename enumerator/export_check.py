"""A second look at what `export` and `statistics` print: the header read back
by its form, against the lines that `sluice` prints."""

import binascii
import re

from export import export
from generate import (random_kinds_sheets, random_release_sheets,
                      random_sheets)
from limits import NO_ENTRY
from sluice import sluice
from statistics import statistics

ARRAYS = ("names", "lows", "highs", "kinds", "table", "finals")


def elements(header, name):
    """The elements of an array of a header, as words."""
    inside = re.search(rb"sheet_%s\[[^]]*\] = \{\n(.*?)\};" % name.encode(),
                       header, re.S).group(1)
    return [word.decode().rstrip(",").strip('"') for word in inside.split()]


def number(header, name):
    return int(re.search(rb"SHEET_%s(?: = | UINT32_C\()(\d+)" % name.encode(),
                         header).group(1))


def values_of(letter, lows, highs):
    """The values of a letter: the last stream counts fastest."""
    values = []
    for low, high in reversed(list(zip(lows, highs))):
        letter, place = divmod(letter, high - low + 1)
        values.insert(0, low + place)
    return values


def printed_back(header):
    """What `sluice` prints, from the header alone."""
    names, lows, highs, _, table, finals = (elements(header, name)
                                            for name in ARRAYS)
    lows, highs, table = (list(map(int, words))
                          for words in (lows, highs, table))
    letters, states = number(header, "LETTERS"), number(header, "STATES")
    lines = [["state", "final", *names, "next"]]
    for place in range(states * letters):
        entry = table[2 * place] + 256 * table[2 * place + 1]
        if entry != NO_ENTRY:
            state, letter = divmod(place, letters)
            lines.append([state, finals[state], *values_of(letter, lows, highs),
                          entry])
    return "".join(" ".join(map(str, line)) + "\n" for line in lines).encode()


def export_fault(text):
    """Where a header is not as the sheet and its table say, or None."""
    header, table = export(text), sluice(text)
    if table.startswith(b"refused"):
        return None if header == table else ("refused", header, table)
    if printed_back(header) != table:
        return "the table read back", printed_back(header), table
    if number(header, "CRC32") != binascii.crc32(text):
        return "the checksum", number(header, "CRC32"), binascii.crc32(text)
    lines = text.decode().split("\n")
    if lines[0].split()[:1] == ["release"]:
        lines = lines[1:]
    kinds = lines[3].split() if lines[3:4] and lines[3].split()[:1] in (
        ["read"], ["set"]) else ["set"] * len(lines[0].split())
    if elements(header, "kinds") != [str(int(kind == "read"))
                                     for kind in kinds]:
        return "the kinds", elements(header, "kinds"), kinds
    return None


def statistics_fault(text):
    """Where the sizes are not those of the printed table, or None."""
    table, printed = sluice(text), statistics(text)
    sizes = dict(line.split() for line in printed.decode().splitlines())
    if ("refused" in sizes) != table.startswith(b"refused"):
        return "the refusal", printed, table
    if "refused" in sizes:
        wanted = {9: {"letters", "ahead", "back", "situations", "rows"},
                  10: {"letters", "ahead", "back", "rows"}}.get(
                      int(sizes["refused"]), set())
        if (table != b"refused %d\n" % int(sizes["refused"])
                or set(sizes) != wanted | {"refused"}
                or not printed.endswith(table)):
            return "what a refusal prints", printed, table
        return None
    rows = [line.split() for line in table.decode().splitlines()[1:]]
    if int(sizes["states"]) != 1 + max(int(row[0]) for row in rows):
        return "the states", printed
    return None if int(sizes["states"]) <= int(sizes["situations"]) <= int(
        sizes["rows"]) else ("the situations", printed)


def fault(text):
    return export_fault(text) or statistics_fault(text)


def difference(rng, drawn=None):
    """A drawn sheet on which a fault is found, or None."""
    draw = rng.choice((random_sheets, random_kinds_sheets,
                       random_release_sheets))
    text, = drawn or (draw(rng.randrange(10 ** 9), 1)[0][1],)
    found = fault(text)
    return (text, *found) if found else None
