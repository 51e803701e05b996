"""From the bytes of a sheet to its tree, or to the lowest of refusals 1 to 7.

Each refusal is one predicate that mentions no other.  Refusals 1 to 3 are
judged on any bytes; 4 to 7 speak of names, integers and expressions, so they
are judged on the tree that the form gives.
"""

from collections import namedtuple
from math import prod

import limits
from grammar import (RESERVED, STREAM_KINDS, Integer, Name,
                     all_subexpressions, bracket_levels, constraint_readings,
                     has_integer_form, has_name_form, rounded_down,
                     split_lines, split_tokens)
from intervals import deepest_back, deepest_reach, firsts, interval, untils

Sheet = namedtuple("Sheet", "names lows highs kinds constraints")


def token_lines(text):
    return [split_tokens(line, number)
            for number, line in enumerate(split_lines(text))]


def says_release(tokens):
    """"Only a first line of `release` and one integer is such a line"
    (document 02, S-11)."""
    return (len(tokens) == 2 and tokens[0].text == "release"
            and has_integer_form(tokens[1].text))


def release_and_rest(lines):
    """The release that the first line says, 1 without such a line, and the
    lines "from the names as before"."""
    if lines and says_release(lines[0]):
        return int(lines[0][1].text), lines[1:]
    return 1, lines


def of_release(constraint, release):
    """The constraint as a sheet of the release means it."""
    if release == 1:
        return constraint
    return constraint._replace(left=rounded_down(constraint.left),
                               right=rounded_down(constraint.right))


def says_kinds(tokens):
    """Whether the line says which streams are read and which are set: it is
    "known by `read` or `set` as its first token" (document 02, S-6)."""
    return bool(tokens) and tokens[0].text in STREAM_KINDS


def kinds_and_constraints(lines):
    """The line of kinds, or None, and the constraint lines, of the lines from
    the names on.  "An optional line after the highest values"; "Every further
    line is one constraint"."""
    further = lines[3:]
    if further and says_kinds(further[0]):
        return further[0], further[1:]
    return None, further


def kinds_line(tokens, count):
    """The kinds that the line has, "one of these for each stream, or the
    sheet is 3; without it all are `set`"; or None."""
    if tokens is None:
        return ["set"] * count
    texts = [token.text for token in tokens]
    if len(texts) != count or not all(text in STREAM_KINDS for text in texts):
        return None
    return texts


def names_line(tokens):
    """The names of line 1, or None."""
    texts = [token.text for token in tokens]
    return texts if texts and all(map(has_name_form, texts)) else None


def integers_line(tokens, count):
    """The integers of line 2 or 3, one per stream, or None."""
    texts = [token.text for token in tokens]
    if len(texts) != count or not all(map(has_integer_form, texts)):
        return None
    return [int(text) for text in texts]


def form(text):
    """The sheet that the text has the form of, or None.  "A sheet without the
    line, or with `release 1`, reads as it always did [..] Any other number is
    3." """
    release, lines = release_and_rest(token_lines(text))
    if release not in (1, 2) or len(lines) < 3:
        return None
    names = names_line(lines[0])
    if names is None:
        return None
    lows = integers_line(lines[1], len(names))
    highs = integers_line(lines[2], len(names))
    tokens, further = kinds_and_constraints(lines)
    kinds = kinds_line(tokens, len(names))
    readings = [constraint_readings(tokens) for tokens in further]
    if None in (lows, highs, kinds) or not all(readings):
        return None
    return Sheet(names, lows, highs, kinds,
                 [of_release(reading[0], release) for reading in readings])


def ranges(sheet):
    """The range of each stream by its name."""
    return dict(zip(sheet.names, zip(sheet.lows, sheet.highs)))


def letter_count(sheet):
    """"A letter is one value per stream." """
    return prod(high - low + 1
                for low, high in zip(sheet.lows, sheet.highs))


def has_foreign_bytes(text):
    """Refusal 1: "too many bytes, or a byte other than 10 and 32 to 126." """
    return (len(text) > limits.SHEET_BYTES
            or any(byte != 10 and not 32 <= byte <= 126 for byte in text))


def has_too_much_text(text):
    """Refusal 2: "over 8 tokens in line 1, 32 lines after line 3, 1,024
    tokens in them, or, up to some place in one of them, more than 32 more
    `(` than `)`."  It "does not count this line", that of kinds, "or its
    tokens", and "lines are counted from the names"."""
    _, lines = release_and_rest(token_lines(text))
    _, further = kinds_and_constraints(lines)
    return (len(lines) > 0 and len(lines[0]) > limits.STREAMS
            or len(further) > limits.CONSTRAINTS
            or sum(map(len, further)) > limits.CONSTRAINT_TOKENS
            or any(has_bracket_excess(tokens) for tokens in further))


def has_bracket_excess(tokens):
    """The excess is greatest just after a `(`."""
    return any(token.text == "(" and level + 1 > limits.BRACKET_EXCESS
               for token, level in zip(tokens, bracket_levels(tokens)))


def is_malformed(text):
    """Refusal 3: "not of the form above, the empty sheet included." """
    return form(text) is None


def has_wrong_name(sheet):
    """Refusal 4: "a name given twice, reserved, or unknown in a
    constraint." """
    used = [expression.text
            for expression in all_subexpressions(sheet.constraints)
            if type(expression) is Name]
    return (len(set(sheet.names)) < len(sheet.names)
            or any(name in RESERVED for name in sheet.names)
            or any(name not in sheet.names for name in used))


def has_wrong_integer(sheet):
    """Refusal 5: "an integer beyond the magnitude bound, or a low above its
    high." """
    integers = sheet.lows + sheet.highs + [
        expression.value
        for expression in all_subexpressions(sheet.constraints)
        if type(expression) is Integer]
    return (any(abs(integer) > limits.MAGNITUDE for integer in integers)
            or any(low > high for low, high in zip(sheet.lows, sheet.highs)))


def has_wide_interval(sheet):
    """Refusal 6: "an expression's interval leaves ±1,000,000,000." """
    intervals = [interval(expression, ranges(sheet))
                 for expression in all_subexpressions(sheet.constraints)]
    return any(low < -limits.MAGNITUDE or high > limits.MAGNITUDE
               for low, high in intervals)


def is_over_bounds(sheet):
    """Refusal 7: "letters, untils, firsts or D+B over the bound." """
    window = (deepest_reach(sheet.constraints)
              + deepest_back(sheet.constraints))
    return (letter_count(sheet) > limits.LETTERS
            or len(untils(sheet.constraints)) > limits.UNTILS
            or len(firsts(sheet.constraints)) > limits.FIRSTS
            or window > limits.WINDOW)


TEXT_REFUSALS = ((1, has_foreign_bytes), (2, has_too_much_text),
                 (3, is_malformed))
TREE_REFUSALS = ((4, has_wrong_name), (5, has_wrong_integer),
                 (6, has_wide_interval), (7, is_over_bounds))


def read(text):
    """The lowest refusal that holds and None, or 0 and the sheet."""
    for number, holds in TEXT_REFUSALS:
        if holds(text):
            return number, None
    sheet = form(text)
    for number, holds in TREE_REFUSALS:
        if holds(sheet):
            return number, None
    return 0, sheet
