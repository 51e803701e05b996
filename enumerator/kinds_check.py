"""The second route for the line of kinds (document 02, S-6): a sheet is written
again without the words `read` and `set`, as a sheet of document 01 alone, and
its line of kinds is judged by itself, by bytes; compared with `reading.py`.
Sheets that differ only in kinds must compile to equal tables."""

import itertools
import re

from compiler import compile_sheet
from generate import random_lines, sheet_bytes, with_kinds
from limits import SHEET_BYTES, SITUATIONS
from reading import read

KIND = rb"(?<![!-'*-~])(?:read|set)(?![!-'*-~])"
HEADERS = ((b"x", b"0", b"1"), (b"x y", b"0 0", b"1 1"), (b"set", b"0", b"1"),
           (b"x read", b"0 0", b"1 1"), (b"x", b"1", b"0"), (b"x", b"0"))
WORDS = (b"read", b"set", b"x", b"==", b"1", b"(", b"reads")
BEHIND = ((), (b"x == 1",), (b"read",), (b"x == set",), (b"",),
          (b"x >= 0",) * 32, (b"x >= 0",) * 33, (b"(" * 33,))
FOURTH = (b"", b" ", b"  read", b"set  ", b"read)", b"set(", b"read" + b"(" * 33,
          b"(" * 33 + b"read", b"read " * 1100, b"read\t", b"\tset", b"READ",
          b"read set read", b"read,set", b"read-set")


def without_kinds(text):
    """The sheet with other words for `read` and `set`, reserved ones in line 1
    and no words at all in constraints, and without its line of kinds; and
    that line, or None."""
    lines = text.split(b"\n")
    said = None
    if len(lines) > 3 and re.match(rb"[^!-~]*" + KIND, lines[3]):
        said = lines.pop(3)
        if len(lines) == 3:
            lines.append(b"")
    lines[0] = re.sub(KIND, b"if", lines[0])
    lines[1:] = [re.sub(KIND, b"READ", line) for line in lines[1:]]
    return b"\n".join(lines), said


def by_writing_again(text):
    """The lowest of refusals 1 to 7, or 0."""
    if len(text) > SHEET_BYTES or re.search(rb"[^\n -~]", text):
        return 1
    rest, said = without_kinds(text)
    refusal = read(rest)[0]
    if refusal == 2 or said is None:
        return refusal
    streams = len(rest.split(b"\n")[0].split())
    whole = rb" *(?:read|set)" + rb" +(?:read|set)" * (streams - 1) + rb" *"
    return refusal if re.fullmatch(whole, said) else 3


def short_sheets():
    """Every sheet of some headers, fourth lines of up to three words, and
    lines behind them."""
    fourths = FOURTH + tuple(
        b" ".join(words) for count in range(1, 4)
        for words in itertools.product(WORDS, repeat=count))
    for header, fourth, behind in itertools.product(HEADERS, fourths, BEHIND):
        yield b"\n".join(header + (fourth,) + behind)


def kinds_of(text):
    """The kinds that the fourth line says."""
    return text.split(b"\n")[3].decode().split()


def drawn_difference(rng, drawn=None):
    """A drawn sheet, without kinds and with drawn ones, whose compiles or
    whose kinds are not as they should be; or None."""
    lines = random_lines(rng, 6)
    if drawn:
        lines = drawn[0].decode("latin-1").rstrip("\n").split("\n")
    plain, said = sheet_bytes(lines), sheet_bytes(with_kinds(rng, lines))
    refusal, sheet = read(plain)
    if refusal != read(said)[0]:
        return plain, said
    if refusal:
        return None
    streams = [sheet.names, sheet.lows, sheet.highs]
    if (list(sheet[:4]) != streams + [["set"] * len(sheet.names)]
            or list(read(said)[1][:4]) != streams + [kinds_of(said)]
            or compile_sheet(plain, SITUATIONS)
            != compile_sheet(said, SITUATIONS)):
        return plain, said
    return None
