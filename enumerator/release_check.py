"""The second route for the release line (document 02, S-11): a sheet of release
2 is written again in release 1, its first line judged by itself, by bytes, and
each quotient and remainder spelled by those that are cut toward zero; compared
with `reading.py` and with the tables of both sheets."""

import itertools
import re

from compiler import compile_sheet
from generate import division_lines, sheet_bytes, with_release
from grammar import Binary, Conditional, Unary, constraint_readings, split_tokens
from grammar import constraint_text
from intervals import firsts
from limits import SHEET_BYTES, SITUATIONS
from reading import read

RELEASE_LINE = rb" *release +(0|-?[1-9][0-9]*) *"
WORDS = (b"release", b"1", b"2", b"3", b"-2", b"02", b"x", b"(", b"releases")
BEHIND = ((b"x", b"0", b"1"), (b"x", b"0", b"1", b"read"), (b"x", b"0"),
          (b"0 0", b"1 1"), (b"0", b"1"), (b"0", b"1", b"release == 1"),
          (b"release x", b"0 0", b"1 1", b"release == x"),
          (b"a b c d e f g h i", b"0", b"1"),
          (b"x", b"0", b"1") + (b"x >= 0",) * 32,
          (b"x", b"0", b"1") + (b"x >= 0",) * 33, (b"x", b"1", b"0"), ())


def by_first_line(text):
    """The lowest of refusals 1 to 7 of a sheet without division, or 0."""
    if len(text) > SHEET_BYTES or re.search(rb"[^\n -~]", text):
        return 1
    first, _, rest = text.partition(b"\n")
    said = re.fullmatch(RELEASE_LINE, first)
    if said is None:
        return read(text)[0]
    # A second such line is one of names, of which the second is none.
    refusal = read(re.sub(rb"^ *release(?= +[-0-9])", b"RELEASE", rest))[0]
    return refusal if said.group(1) in (b"1", b"2") else min(refusal or 3, 3)


def short_sheets():
    """Every sheet with a first line of up to three words and some lines behind
    it."""
    for count in range(4):
        for words, behind in itertools.product(
                itertools.product(WORDS, repeat=count), BEHIND):
            yield b"\n".join((b" ".join(words),) + behind)


def cut(expression):
    """The expression with quotients and remainders rounded down spelled by
    those that are cut toward zero."""
    kind = type(expression)
    if kind is Unary:
        return expression._replace(operand=cut(expression.operand))
    if kind is Conditional:
        return Conditional(*map(cut, expression))
    if kind is not Binary:
        return expression
    left, right = cut(expression.left), cut(expression.right)

    def both(word, one, other):
        return Binary(word, None, one, other)

    if expression.word not in ("/", "%"):
        return both(expression.word, left, right)
    # Less than 0 where remainder and divisor have different signs.
    rest = both("%", left, right)
    lower = both("lt", both("*", rest, right), both("-", right, right))
    if expression.word == "/":
        return both("-", both("/", left, right), lower)
    return both("+", rest, both("*", lower, right))


def drawn_difference(rng, drawn=None):
    """A drawn sheet of release 2 whose table is not that of the same sheet
    written in release 1, and that sheet; or None."""
    lines = division_lines(rng, 6)
    if drawn:
        lines = drawn[0].decode("latin-1").rstrip("\n").split("\n")[1:]
    text = sheet_bytes(with_release(2, lines))
    parts = [constraint_readings(split_tokens(line.encode(), 0))[0]
             for line in lines[3:]]
    again = sheet_bytes(with_release(1, lines[:3] + [
        constraint_text(part._replace(left=cut(part.left), right=cut(part.right)))
        for part in parts]))
    one, two = compile_sheet(text, SITUATIONS), compile_sheet(again, SITUATIONS)
    # Spelled again, firsts stand more than once, and intervals are wider.
    if {one.refusal, two.refusal} & {6, 7, 8} or len(again) > SHEET_BYTES:
        return None
    same = one[1:2] + one[3:] == two[1:2] + two[3:] and one.refusal == two.refusal
    counted = firsts(parts) or one.situations == two.situations
    return None if same and counted else (text, again)
