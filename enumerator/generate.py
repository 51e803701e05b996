"""A seeded generator of sheets.  A seed fully determines what is given.

    python3 enumerator/generate.py SEED COUNT

prints COUNT random sheets, COUNT with divisions and COUNT of release 2, then
the sheets at the bounds and those with many situations, one JSON object a line with its name and
the sheet as a latin-1 text.
"""

import json
import random

from commands import numbers
from grammar import (COMPARISON_SIGNS, COMPARISON_WORDS, OPERATORS,
                     STREAM_KINDS)

STREAM_NAMES = ("x", "y", "z", "level", "gate", "a", "weirgate", "flow")

# Lines that often leave solutions over.  NAME is a stream, PART a random
# part, SMALL a small integer, DIVISION a quotient or remainder in brackets.
UNTIL_TEMPLATES = (
    "1 until ( NAME eq SMALL )",
    "1 until PART",
    "( NAME ne SMALL ) until ( NAME eq NAME )",
    "( NAME ge SMALL ) until ( NAME ne next NAME )",
    "NAME until ( next NAME )",
    "PART until ( PART or ( 0 fby PART ) )",
    "PART until ( NAME and next next NAME )",
    "NAME until ( 0 fby NAME )",
    "( NAME - SMALL ) until ( NAME / SMALL )",
    "1 until ( ( first NAME ) ne NAME )",
    "( NAME eq first NAME ) until ( NAME ne ( 0 fby NAME ) )",
    "1 until ( ( NAME eq SMALL ) and ( 0 fby ( NAME eq SMALL ) ) )",
)
TEMPLATES = (
    "next NAME == ( NAME + 1 ) % SMALL",
    "NAME == SMALL fby ( 1 - NAME )",
    "NAME == PART fby NAME",
    "NAME == SMALL fby ( PART % 2 )",
    "next NAME != NAME",
    "next NAME >= NAME",
    "next next NAME != PART",
    "( NAME ne SMALL ) -> ( next NAME ne SMALL )",
    "( NAME eq SMALL ) -> PART",
    "PART -> ( NAME eq next NAME )",
    "NAME != first NAME",
    "( NAME ne 0 ) -> ( NAME ge first next NAME )",
    "first NAME == SMALL",
    "NAME <= first PART",
    "NAME == SMALL / NAME",
    "( NAME % NAME ) == ( PART % SMALL )",
    "NAME == if ( PART ) then ( NAME ) else SMALL",
    "( if PART then ( next NAME ) else NAME ) <= NAME",
    "NAME == ( 0 fby ( 0 fby NAME ) )",
    "NAME >= SMALL fby ( first next NAME )",
    "NAME != SMALL fby ( next next NAME )",
    "next ( SMALL fby NAME ) <= NAME",
)
# Lines in which a value may be none (document 02, S-5).
DIVISION_TEMPLATES = (
    "DIVISION <= PART",
    "DIVISION != DIVISION",
    "SMALL <= next DIVISION",
    "( DIVISION fby NAME ) != SMALL",
    "NAME >= SMALL fby DIVISION",
    "next ( DIVISION fby DIVISION ) >= SMALL",
    "( next DIVISION fby next next NAME ) >= SMALL",
    "DIVISION -> PART",
    "PART -> DIVISION",
    "DIVISION until PART",
    "PART until DIVISION",
    "1 until ( not DIVISION )",
    "( not next DIVISION ) until ( DIVISION and NAME )",
    "( if NAME then DIVISION else PART ) >= SMALL",
    "( if ( NAME ne 0 ) then ( NAME / NAME ) else SMALL ) <= NAME",
    "( if DIVISION then PART else NAME ) >= SMALL",
    "( NAME and DIVISION ) == PART",
    "( NAME or DIVISION ) -> PART",
    "( ( DIVISION eq DIVISION ) + ( first NAME ) ) >= SMALL",
    "first DIVISION >= SMALL",
    "( if NAME then SMALL else first DIVISION ) <= NAME",
    "( if 1 then NAME else ( first next DIVISION ) ) >= SMALL",
    "( SMALL * first ( DIVISION fby NAME ) ) != SMALL",
    "PART until ( first DIVISION )",
)


def random_integer(rng):
    return str(rng.choice((0, 0, 1, 1, 1, 2, 2, 3, -1, -2, -3)))


def random_atom(rng, names):
    return [rng.choice(names)] if rng.random() < 0.7 else [random_integer(rng)]


def random_part(rng, names, depth):
    """The tokens of a part."""
    chance = rng.random()
    if depth == 0 or chance < 0.3:
        return random_atom(rng, names)
    if chance < 0.5:
        prefix = rng.choice(("first", "next", "next", "not"))
        return [prefix] + random_part(rng, names, depth - 1)
    return ["("] + random_expression(rng, names, depth - 1) + [")"]


def random_expression(rng, names, depth):
    """The tokens of an expression."""
    chance = rng.random()
    if chance < 0.2:
        return random_part(rng, names, depth)
    if chance < 0.3:
        condition, left, right = (random_part(rng, names, depth)
                                  for _ in range(3))
        return (["if"] + condition + ["then"] + left + ["else"] + right)
    operator = rng.choice(OPERATORS + COMPARISON_WORDS + ("fby", "fby", "%"))
    return (random_part(rng, names, depth) + [operator]
            + random_part(rng, names, depth))


def random_division(rng, names):
    """The tokens of a quotient or remainder in brackets."""
    dividend = random_part(rng, names, 1)
    operator = rng.choice("//%")
    return ["("] + dividend + [operator] + random_part(rng, names, 1) + [")"]


def random_constraint(rng, names, depth):
    sign = rng.choice(COMPARISON_SIGNS
                      + ("->", "->", "->", "until", "until", "!=", "<="))
    return (random_expression(rng, names, depth) + [sign]
            + random_expression(rng, names, depth))


def template_constraint(rng, names, templates):
    tokens = []
    for word in rng.choice(templates).split():
        if word == "NAME":
            tokens.append(rng.choice(names))
        elif word == "PART":
            tokens += random_part(rng, names, 2)
        elif word == "SMALL":
            tokens.append(random_integer(rng))
        elif word == "DIVISION":
            tokens += random_division(rng, names)
        else:
            tokens.append(word)
    return tokens


def spaced(rng, tokens):
    """The tokens as a line; a space may be left out beside a bracket, and
    more than one may stand."""
    line = tokens[0]
    for before, token in zip(tokens, tokens[1:]):
        beside = {before, token} & {"(", ")"}
        if not (beside and rng.random() < 0.2):
            line += " " if rng.random() < 0.95 else "   "
        line += token
    return line if rng.random() < 0.95 else " " + line + "  "


def random_ranges(rng, count, letter_limit):
    """Ranges of count streams with at most letter_limit letters."""
    lows, highs = [], []
    letters = 1
    for _ in range(count):
        width = rng.choice((1, 2, 2, 2, 3, 3, 4, 5))
        width = max(1, min(width, letter_limit // letters))
        letters *= width
        low = rng.choice((0, 0, 0, 0, -1, -1, -2, 1))
        lows.append(str(low))
        highs.append(str(low + width - 1))
    return lows, highs


def random_header(rng, count, letter_limit):
    """The names of count streams and the three header lines."""
    names = rng.sample(STREAM_NAMES, count)
    lows, highs = random_ranges(rng, count, letter_limit)
    return names, [" ".join(names), " ".join(lows), " ".join(highs)]


def random_lines(rng, letter_limit=8):
    """The lines of a well-formed sheet, without the ends of lines."""
    names, lines = random_header(rng, rng.choice((1, 1, 1, 2, 2, 3)),
                                 letter_limit)
    for _ in range(rng.choice((0, 1, 1, 1, 2, 2, 3, 4))):
        chance = rng.random()
        if chance < 0.3:
            tokens = template_constraint(rng, names, UNTIL_TEMPLATES)
        elif chance < 0.65:
            tokens = template_constraint(rng, names, TEMPLATES)
        else:
            tokens = random_constraint(rng, names, rng.choice((1, 2, 2, 3)))
        lines.append(spaced(rng, tokens))
    return lines


def sheet_bytes(lines, last_end=True):
    return ("\n".join(lines) + ("\n" if last_end else "")).encode("latin-1")


def random_sheets(seed, count, letter_limit=8):
    """Named random well-formed sheets (some are refused by 6 or 7)."""
    rng = random.Random(seed)
    return [("random-%d-%d" % (seed, number),
             sheet_bytes(random_lines(rng, letter_limit), rng.random() < 0.8))
            for number in range(count)]


def division_lines(rng, letter_limit):
    """The same of a sheet with a division in most of its constraints."""
    names, lines = random_header(rng, rng.choice((1, 2, 2)), letter_limit)
    for _ in range(rng.choice((1, 1, 1, 2, 3))):
        templates = DIVISION_TEMPLATES if rng.random() < 0.8 else TEMPLATES
        lines.append(spaced(rng, template_constraint(rng, names, templates)))
    return lines


def division_sheets(seed, count, letter_limit=8):
    """Named random sheets in which values may be none."""
    rng = random.Random(seed)
    return [("division-%d-%d" % (seed, number),
             sheet_bytes(division_lines(rng, letter_limit)))
            for number in range(count)]


def with_kinds(rng, lines):
    """The lines of a sheet with a line of kinds after the highest values."""
    kinds = [rng.choice(STREAM_KINDS) for _ in lines[0].split()]
    return lines[:3] + [spaced(rng, kinds)] + lines[3:]


def random_kinds_sheets(seed, count, letter_limit=8):
    """Named random well-formed sheets with a line of kinds."""
    rng = random.Random("kinds %d" % seed)
    return [("random-kinds-%d-%d" % (seed, number),
             sheet_bytes(with_kinds(rng, random_lines(rng, letter_limit)),
                         rng.random() < 0.8))
            for number in range(count)]


def with_release(release, lines):
    """The lines of a sheet behind a line that says its release."""
    return ["release %d" % release] + lines


def random_release_sheets(seed, count, letter_limit=8):
    """Named random sheets of release 2 with divisions, some with a line of
    kinds."""
    rng = random.Random("release %d" % seed)
    sheets = []
    for number in range(count):
        lines = division_lines(rng, letter_limit)
        if rng.random() < 0.2:
            lines = with_kinds(rng, lines)
        sheets.append(("random-release-%d-%d" % (seed, number),
                       sheet_bytes(with_release(2, lines))))
    return sheets


def one_stream(*constraints, low=0, high=1):
    return ["x", str(low), str(high), *constraints]


def many_streams(count, high=1):
    names = "a b c d e f g h i".split()[:count]
    highs = [str(high)] + ["0"] * (count - 1)
    return [" ".join(names), " ".join(["0"] * count), " ".join(highs)]


def nested(open_count, inner="x"):
    return "( " * open_count + inner + " )" * open_count


def chain(word, count, last="x"):
    return (word + " ") * count + last


def fby_chain(count):
    """`fby` nested on the right: its back is the count."""
    text = "x"
    for _ in range(count):
        text = "( 0 fby %s )" % text
    return text


def padded(lines, length):
    """A sheet of exactly the given number of bytes, filled with spaces."""
    text = sheet_bytes(lines, last_end=False)
    return text + b" " * (length - len(text))


def token_bound_sheets():
    """1,024 and 1,025 tokens, in one line and over 32 lines."""
    short = ["x == x"] * 31
    rest = 1024 - 3 * len(short) - 3
    return [
        ("tokens-1024-one-line", 0, one_stream(chain("not", 1021) + " == 0")),
        ("tokens-1025-one-line", 2, one_stream(chain("not", 1022) + " == 0")),
        ("tokens-1024-lines", 0,
         one_stream(*short, chain("not", rest) + " == x")),
        ("tokens-1025-lines", 2,
         one_stream(*short, chain("not", rest + 1) + " == x")),
        ("tokens-1024-malformed", 3, one_stream("x " * 1024)),
        ("tokens-1025-malformed", 2, one_stream("x " * 1025)),
        ("tokens-1025-brackets", 2, one_stream("() " * 512 + ")")),
    ]


def line_bound_sheets():
    """8 and 9 streams, 32 and 33 constraints, empty lines among them."""
    return [
        ("streams-8", 0, many_streams(8)),
        ("streams-9", 2, many_streams(9)),
        ("line-one-8-brackets", 3, ["( ) ( ) ( ) ( )", "0", "1"]),
        ("line-one-9-brackets", 2, ["((((((((("]),
        ("line-one-9-only", 2, ["a b c d e f g h i"]),
        ("line-two-9", 3, ["a b c d e f g h", chain("0", 8, "0"),
                           chain("0", 7, "0")]),
        ("constraints-32", 0, one_stream(*["x == x"] * 32)),
        ("constraints-33", 2, one_stream(*["x == x"] * 33)),
        ("constraints-32-one-empty", 3, one_stream(*["x == x"] * 31, "")),
        ("constraints-33-one-empty", 2, one_stream(*["x == x"] * 32, "")),
        ("constraints-33-all-empty", 2, one_stream(*[""] * 33)),
        ("constraints-32-all-empty", 3, one_stream(*[""] * 32)),
        ("empty-sheet-lines-36", 2, [""] * 36),
        ("empty-sheet-lines-35", 3, [""] * 35),
    ]


def bracket_bound_sheets():
    """Bracket excess 32 and 33, which is a net difference within one line."""
    return [
        ("brackets-32", 0, one_stream(nested(32) + " == 0")),
        ("brackets-33", 2, one_stream(nested(33) + " == 0")),
        ("brackets-32-right", 0, one_stream("0 == " + nested(32))),
        ("brackets-33-right", 2, one_stream("0 == " + nested(33))),
        ("brackets-32-twice", 0, one_stream(
            "%s + %s == 0" % (nested(31), nested(31)),
            nested(32) + " == " + nested(32))),
        ("brackets-32-open-only", 3, one_stream("(" * 32)),
        ("brackets-33-open-only", 2, one_stream("(" * 33)),
        ("brackets-33-after-close", 3, one_stream(")" + "(" * 33)),
        ("brackets-34-after-close", 2, one_stream(")" + "(" * 34)),
        ("brackets-33-closed-again", 2, one_stream("(" * 33 + ")" * 33)),
        ("brackets-20-on-two-lines", 3, one_stream("(" * 20, "(" * 20)),
        ("brackets-33-in-line-two", 3, ["x", "(" * 33, "1"]),
    ]


def magnitude_bound_sheets():
    """Integers and intervals at and beyond 1,000,000,000."""
    top = 10 ** 9
    return [
        ("integer-top", 0, one_stream("x != %d" % top)),
        ("integer-over-top", 5, one_stream("x != %d" % (top + 1))),
        ("integer-bottom", 0, one_stream("x != -%d" % top)),
        ("integer-under-bottom", 5, one_stream("x != -%d" % (top + 1))),
        ("integer-10000-digits", 5, one_stream("x != " + "9" * 10000)),
        ("range-top", 0, one_stream("x == %d" % top, low=top, high=top)),
        ("range-bottom", 0, one_stream(low=-top, high=-top)),
        ("range-over-top", 5, one_stream(low=top, high=top + 1)),
        ("range-under-bottom", 5, one_stream(low=-top - 1, high=-top)),
        ("interval-top", 0, one_stream("x + 999999999 >= 0")),
        ("interval-over-top", 6, one_stream("x + 1000000000 >= 0")),
        ("interval-bottom", 0, one_stream("-999999999 - x <= 0")),
        ("interval-under-bottom", 6, one_stream("-1000000000 - x <= 0")),
        ("interval-dead-branch", 6, one_stream(
            "( if 0 then ( x + 1000000000 ) else x ) == x")),
        ("interval-condition", 6, one_stream(
            "( if ( x + 1000000000 ) then x else x ) == x")),
        ("interval-in-truth", 6, one_stream("( not ( x + 1000000000 ) ) == 0")),
        ("interval-in-first", 6, one_stream("( first ( x + 1000000000 ) ) >= 0")),
        ("interval-in-fby", 6, one_stream("( ( x + 1000000000 ) fby x ) >= 0")),
        ("interval-until-left", 6, one_stream("( x + 1000000000 ) until x")),
        ("interval-until-right", 6, one_stream("1 until ( x + 1000000000 )")),
        ("interval-quotient", 6, one_stream(
            "( ( x * 1000000000 ) / 1000000000 ) + 1 >= 0")),
        ("interval-remainder", 0, one_stream(
            "( ( ( x * 1000000000 ) % 2 ) + 1 ) >= 0")),
        ("interval-remainder-top", 0, one_stream(
            "( ( x * 999999999 ) % 2 ) + 1 >= 0")),
        ("interval-quotient-below", 6, one_stream(
            "( x / 1 ) - 999999996 <= 0", high=5)),
        ("interval-quotient-below-top", 0, one_stream(
            "( x / 1 ) - 999999995 <= 0", high=5)),
        ("interval-remainder-below", 0, one_stream(
            "( x % 3 ) - 999999996 <= 0", high=5)),
        ("interval-remainder-below-top", 0, one_stream(
            "( x % 3 ) - 999999995 <= 0", high=5)),
        # Document 02, S-2: the tide clock, and k by the dividend's M or the
        # divisor's M less 1, with the dividend's sign at either end.
        ("remainder-tide-clock", 0, one_stream(
            "( ( x * 1000000 ) % 12 ) * 90000000 >= 0", high=1000)),
        ("remainder-smaller-less-one", 6, one_stream(
            "( x % 12 ) * 250000000 >= 0", high=5)),
        ("remainder-smaller-top", 0, one_stream(
            "( x % 12 ) * 200000000 >= 0", high=5)),
        ("remainder-both-signs", 0, one_stream(
            "( x % -3 ) * 500000000 >= -2000000", low=-5, high=5)),
        ("remainder-both-signs-over", 6, one_stream(
            "( x % -3 ) * 500000001 >= -2000000", low=-5, high=5)),
        ("remainder-high-end-0", 0, one_stream(
            "( x % 4 ) + 1000000000 >= 0", low=-9, high=-1)),
        ("remainder-low-end-0", 0, one_stream(
            "( x % 4 ) - 1000000000 <= 0", high=9)),
        ("remainder-divisor-0", 0, one_stream(
            "( x % 0 ) * 1000000000 == 0", high=1000)),
        ("quotient-not-narrowed", 6, one_stream(
            "( ( x * 1000000 ) / 12 ) * 90000000 >= 0", high=1000)),
        ("interval-minus-minus", 0, one_stream(
            "x - -999999999 >= 0", "-500000000 * 2 <= x")),
        ("scope-interval-passes", 0, one_stream("x * 1000000 == 0", high=1000)),
        ("scope-interval-refused", 6, one_stream("x * 1000001 == 0", high=1000)),
    ]


def alphabet_bound_sheets():
    """1,024 and 1,025 letters, products beyond a machine word, and empty
    ranges beside the widest."""
    top = str(10 ** 9)
    return [
        ("letters-1024", 0, one_stream(high=1023)),
        ("letters-1025", 7, one_stream(high=1024)),
        ("letters-1024-negative", 0, one_stream("x < 0", low=-1023, high=0)),
        ("letters-1024-product", 0, ["x y", "0 0", "31 31", "x == y"]),
        ("letters-1025-product", 7, ["x y", "0 0", "40 24"]),
        ("letters-huge", 7, ["a b c d e f g h", chain("-" + top, 7, "-" + top),
                          chain(top, 7, top)]),
        ("letters-two-to-the-64", 7, ["a b c d", chain("1", 3, "1"),
                                   chain("65536", 3, "65536")]),
        ("letters-two-to-the-32", 7, ["a b", "1 1", "65536 65536"]),
        ("letters-1024-free", 0, ["a b", "0 0", "31 31"]),
        ("letters-1024-beside-ones", 0, ["a b c", "5 -1024 7", "5 -1 7"]),
        ("letters-1025-beside-ones", 7, ["a b c", "5 -1024 7", "5 0 7"]),
        ("letters-1056", 7, ["a b", "0 0", "31 32"]),
        ("letters-widest-range", 7, ["a b", "0 -" + top, "0 " + top]),
        ("letters-none-last", 5, ["a b c", "0 0 5", top + " " + top + " 4"]),
        ("letters-none-first", 5, ["a b c", "5 0 0", "4 " + top + " " + top]),
    ]


def window_bound_sheets():
    """D+B 6 and 7."""
    return [
        ("window-next-6", 0, one_stream(chain("next", 6) + " == 0")),
        ("window-next-7", 7, one_stream(chain("next", 7) + " == 0")),
        ("window-fby-6", 0, one_stream("x == " + fby_chain(6))),
        ("window-fby-7", 7, one_stream("x == " + fby_chain(7))),
        ("window-3-and-3", 0, one_stream(chain("next", 3) + " == x",
                                      "x == " + fby_chain(3), high=0)),
        ("window-3-and-4", 7, one_stream(chain("next", 3) + " == x",
                                      "x == " + fby_chain(4), high=0)),
        ("window-cancelled-6", 0, one_stream(
            "x == " + chain("next", 6, fby_chain(6)), high=0)),
        ("window-cancelled-7", 7, one_stream(
            "x == " + chain("next", 7, fby_chain(7)), high=0)),
        ("window-partly-cancelled", 0, one_stream(
            "x == " + chain("next", 3, fby_chain(6)), high=0)),
        ("window-partly-cancelled-over", 7, one_stream(
            "x == " + chain("next", 3, fby_chain(7)), high=0)),
        ("window-first-next-5", 0, one_stream(
            "x == 0 fby ( first %s )" % chain("next", 5), high=0)),
        ("window-first-next-6", 7, one_stream(
            "x == 0 fby ( first %s )" % chain("next", 6), high=0)),
        ("window-first-next-7", 7, one_stream(
            "x == 0 fby ( first %s )" % chain("next", 7), high=0)),
        ("window-fby-takes-off-6", 0, one_stream(
            "x == 0 fby ( %s )" % chain("next", 6), high=0)),
        ("window-fby-takes-off-7", 7, one_stream(
            "x == 0 fby ( %s )" % chain("next", 7), high=0)),
        ("window-fby-left", 0, one_stream(
            "x == %s fby x" % chain("next", 5), high=0)),
        ("window-fby-left-over", 7, one_stream(
            "x == %s fby x" % chain("next", 6), high=0)),
        ("window-first-hides-back", 0, one_stream(
            "x == first " + fby_chain(7), high=0)),
    ]


def operator_bound_sheets():
    """8 and 9 untils, 8 and 9 firsts."""
    until = "1 until x"
    first = "first x >= 0"
    return [
        ("untils-8", 0, one_stream(*[until] * 8)),
        ("untils-9", 7, one_stream(*[until] * 9)),
        ("firsts-8", 0, one_stream(*[first] * 8)),
        ("firsts-9", 7, one_stream(*[first] * 9)),
        ("firsts-8-in-one-part", 0, one_stream(chain("first", 8) + " == x")),
        ("firsts-9-in-one-part", 7, one_stream(chain("first", 9) + " == x")),
    ]


def kinds_line_sheets():
    """The optional line of document 02, S-6: known by its first token alone,
    as the 4th line from the names, and one word for each stream."""
    def kinds(line, *constraints):
        return one_stream(line, *constraints)

    def two(line, *constraints):
        return ["x y", "0 0", "1 1", line, *constraints]

    return [
        ("kinds-read", 0, kinds("read")),
        ("kinds-set", 0, kinds("set")),
        ("kinds-read-set", 0, two("read set", "x -> y")),
        ("kinds-set-read", 0, two("set read", "x -> y")),
        ("kinds-set-set", 0, two("set set", "x -> y")),
        ("kinds-none-said", 0, ["x y", "0 0", "1 1", "x -> y"]),
        ("kinds-P1", 0, ["level gate", "0 0", "2 1", "read set",
                         "( level ge 2 ) -> gate"]),
        ("kinds-spaces", 0, two("   set   read  ", "x -> y")),
        ("kinds-8", 0, many_streams(8) + ["set read " * 4, "a == h"]),
        ("kinds-of-9", 2, many_streams(9) + ["read " * 9]),
        ("kinds-too-few", 3, two("read")),
        ("kinds-too-many", 3, kinds("read set")),
        ("kinds-2000-tokens", 3, kinds("read " * 2000)),
        ("kinds-name-behind", 3, two("read x")),
        ("kinds-integer-behind", 3, two("set 1")),
        ("kinds-sign-behind", 3, kinds("set == 1")),
        ("kinds-stream-set-compared", 3, ["set", "0", "1", "set == 1"]),
        ("kinds-read-compared", 3, kinds("read != x")),
        ("kinds-bracket-behind", 3, two("read )")),
        ("kinds-33-brackets", 3, kinds("read " + "(" * 33)),
        ("kinds-33-brackets-two-streams", 3, two("set(" + "(" * 32)),
        ("kinds-in-brackets", 3, kinds("( read )")),
        ("kinds-behind-33-brackets", 2, kinds("(" * 33 + "read")),
        ("kinds-capital", 3, kinds("Read")),
        ("kinds-run-together", 3, two("readset")),
        ("kinds-like-names", 0, ["reads resets", "0 0", "1 1",
                                 "reads -> resets"]),
        ("kinds-like-unknown", 4, kinds("reads == 1")),
        ("kinds-twice", 3, kinds("set", "set")),
        ("kinds-twice-other", 3, kinds("read", "set")),
        ("kinds-behind-constraint", 3, kinds("x == x", "read")),
        ("kinds-behind-blank", 3, kinds("", "read")),
        ("kinds-before-highs", 3, ["x", "0", "read", "1"]),
        ("kinds-first-line", 4, ["read", "0", "1"]),
        ("kinds-for-highs", 3, ["x", "0", "set"]),
        ("kinds-name-read", 4, ["read x", "0 0", "1 1"]),
        ("kinds-name-set", 4, ["x set", "0 0", "1 1"]),
        ("kinds-both-names", 4, ["read set", "0 0", "1 1", "set read"]),
        ("kinds-name-read-said", 4, ["read", "0", "1", "read"]),
        ("kinds-name-in-constraint", 3, ["x set", "0 0", "1 1", "x == 1",
                                         "set == 1"]),
        ("kinds-read-in-constraint", 3, kinds("x == read")),
        ("kinds-word-in-constraint", 3, two("read set", "x read y")),
        ("kinds-word-behind", 3, two("read set", "x == set")),
        ("kinds-32-constraints", 0, kinds("read", *["x >= 0"] * 32)),
        ("kinds-33-constraints", 2, kinds("read", *["x >= 0"] * 33)),
        ("kinds-malformed-32", 3, kinds("read read", *["x >= 0"] * 32)),
        ("kinds-malformed-33", 2, kinds("read read", *["x >= 0"] * 33)),
        ("kinds-1024-tokens", 0, kinds("set", chain("not", 1021) + " == 0")),
        ("kinds-1025-tokens", 2, kinds("set", chain("not", 1022) + " == 0")),
        ("kinds-brackets-32", 0, kinds("set", nested(32) + " == 0")),
        ("kinds-brackets-33", 2, kinds("set", nested(33) + " == 0")),
        ("kinds-tabulator", 1, kinds("read\t")),
        ("kinds-unknown-name", 4, kinds("read", "y == 0")),
        ("kinds-low-above-high", 5, one_stream("read", low=1, high=0)),
        ("kinds-interval", 6, kinds("set", "x + 1000000000 >= 0")),
        ("kinds-letters", 7, one_stream("read", high=1024)),
        ("kinds-until", 0, two("read set", "x until y")),
        ("kinds-fby", 0, two("set read", "x == 0 fby ( 1 - y )",
                             "next y != x")),
        ("kinds-no-solution", 0, kinds("read", "next x == x + 1")),
    ]


def release_line_sheets():
    """The optional first line of document 02, S-11: known by `release` and one
    integer alone, lines counted behind it, and intervals of release 2."""
    def two(*constraints, low=0, high=1):
        return with_release(2, one_stream(*constraints, low=low, high=high))

    cases = (
        ("2", 0, "release 2|x|0|1"),
        ("1", 0, "release 1|x|0|1"),
        ("spaces", 0, "  release   2  |x|0|1"),
        ("kinds", 0, "release 2|x|0|1|read"),
        ("kinds-and-rule", 0, "release 2|x y|0 0|1 1|read set|x -> y"),
        ("kinds-fifth", 3, "release 2|x|0|1|x == x|read"),
        ("7", 3, "release 7|x|0|1"),
        ("0", 3, "release 0|x|0|1"),
        ("-1", 3, "release -1|x|0|1"),
        ("-2", 3, "release -2|x|0|1"),
        ("3", 3, "release 3|x|0|1"),
        ("12", 3, "release 12|x|0|1"),
        ("20", 3, "release 20|x|0|1"),
        ("4294967298", 3, "release 4294967298|x|0|1"),
        ("18446744073709551618", 3, "release 18446744073709551618|x|0|1"),
        ("long", 3, "release 1%s|x|0|1" % ("0" * 5000)),
        ("7-nine-names", 2, "release 7|a b c d e f g h i|0|1"),
        ("7-wrong-name", 3, "release 7|if|0|1"),
        ("7-low-above-high", 3, "release 7|x|1|0"),
        ("nine-names", 2, "release 2|a b c d e f g h i|0|1"),
        ("02", 3, "release 02|x|0|1"),
        ("02-as-names", 3, "release 02|0 0|1 1"),
        ("-0", 3, "release -0|x|0|1"),
        ("+2", 3, "release +2|x|0|1"),
        ("brackets", 3, "release (2)|x|0|1"),
        ("in-brackets", 3, "(release 2)|x|0|1"),
        ("2-3", 3, "release 2 3|x|0|1"),
        ("2-2-2-seven-more", 2, "release 2 2 2 2 2 2 2 2|x|0|1"),
        ("twice", 3, "release 2|release 2|x|0|1"),
        ("twice-other", 3, "release 1|release 2|x|0|1"),
        ("behind", 3, "x|0|1|release 2"),
        ("behind-names", 3, "x|release 2|0|1"),
        ("blank-before", 3, "|release 2|x|0|1"),
        ("blank-behind", 3, "release 2||x|0|1"),
        ("alone", 3, "release 2"),
        ("alone-ended", 3, "release 2|"),
        ("no-highs", 3, "release 2|x|0"),
        ("capital", 3, "Release 2|x|0|1"),
        ("run-together", 3, "release2|x|0|1"),
        ("other-word", 3, "releases 2|x|0|1"),
        ("shorter-word", 3, "releas 2|x|0|1"),
        ("integer-first", 3, "2 release|x|0|1"),
        ("stream", 0, "release|0|1|release == 1"),
        ("two-streams", 0, "release x|0 0|1 1|release == x"),
        ("stream-behind", 0, "release 2|release|-1|1|release / 2 <= 0"),
        ("two-streams-behind", 0, "release 2|release x|0 0|1 1|release == x"),
        ("stream-twice", 4, "release release|0 0|1 1"),
        ("in-rule", 4, "release 2|x|0|1|release == x"),
        ("integer-in-rule", 3, "release 2|x|0|1|release 2"),
        ("tabulator", 1, "release\t2|x|0|1"),
        ("return", 1, "release 2\r|x|0|1"),
        ("wrong-name", 4, "release 2|if|0|1"),
        ("low-above-high", 5, "release 2|x|1|0"),
        ("letters", 7, "release 2|x|0|1024"),
        ("letters-1024", 0, "release 2|x|0|1023"),
    )
    sheets = [("release-line-" + name, refusal, text.split("|"))
              for name, refusal, text in cases]
    return sheets + [("release-" + name, refusal, lines)
                     for name, refusal, lines in (
        ("32-constraints", 0, two(*["x >= 0"] * 32)),
        ("33-constraints", 2, two(*["x >= 0"] * 33)),
        ("kinds-32-constraints", 0, two("read", *["x >= 0"] * 32)),
        ("7-33-constraints", 2, with_release(7, one_stream(*["x >= 0"] * 33))),
        ("7-32-constraints", 3, with_release(7, one_stream(*["x >= 0"] * 32))),
        ("1024-tokens", 0, two(chain("not", 1021) + " == 0")),
        ("1025-tokens", 2, two(chain("not", 1022) + " == 0")),
        ("brackets-33", 2, two(nested(33) + " == 0")),
        ("2000-tokens", 2, ["release" + " 2" * 2000, "x", "0", "1"]),
        # "a remainder's is ±k with k the divisor's M less 1, not below 0"
        ("interval-one", 0, with_release(1, one_stream(
            "( x % 12 ) * 100000000 >= -1", high=5))),
        ("interval-two", 6, two("( x % 12 ) * 100000000 >= -1", high=5)),
        ("interval-top", 0, two("( x % 11 ) * 100000000 >= -1", high=5)),
        ("interval-low-end", 6, two("( x % 4 ) - 999999998 <= 0", high=9)),
        ("interval-low-end-top", 0, two("( x % 4 ) - 999999997 <= 0", high=9)),
        ("interval-high-end", 6, two("( x % 4 ) + 999999998 >= 0", low=-9,
                                     high=-1)),
        ("interval-high-end-top", 0, two("( x % 4 ) + 999999997 >= 0",
                                         low=-9, high=-1)),
        ("interval-by-negative", 6, two("( x % -4 ) * 333333334 <= 1")),
        ("interval-by-negative-top", 0, two("( x % -4 ) * 333333333 <= 1")),
        ("interval-by-range", 6, two("( 1 % x ) * 250000001 <= 1", low=-5,
                                     high=3)),
        ("interval-by-range-top", 0, two("( 1 % x ) * 250000000 <= 1",
                                         low=-5, high=3)),
        ("interval-by-0", 0, two("( x % 0 ) * 1000000000 == 0", high=1000)),
        ("interval-by-1", 0, two("( x % 1 ) * 1000000000 == 0", high=1000)),
        ("interval-quotient", 6, two("( x / 2 ) - 999999996 <= 0", high=5)),
        ("interval-quotient-top", 0, two("( x / 2 ) - 999999995 <= 0",
                                         high=5)),
        ("interval-added", 0, two("next ( x % 5 ) == 0 fby ( x / 3 )", low=-2,
                                  high=2)),
    )]


def length_bound_sheets():
    """16,384 and 16,385 bytes; these are bytes already."""
    lines = one_stream("x == x")
    return [("bytes-16384", 0, padded(lines, 16384)),
            ("bytes-16385", 1, padded(lines, 16385)),
            ("bytes-16384-newlines", 2, b"\n" * 16384),
            ("bytes-16385-newlines", 1, b"\n" * 16385),
            # "Its bytes count for 1"
            ("bytes-16384-release", 0, padded(with_release(2, lines), 16384)),
            ("bytes-16385-release", 1, padded(with_release(2, lines), 16385))]


def bound_sheets():
    """All sheets at the bounds: triples of name, refusal (worked out by hand;
    0 for none of 1 to 7) and sheet."""
    groups = (token_bound_sheets(), line_bound_sheets(),
              bracket_bound_sheets(), magnitude_bound_sheets(),
              alphabet_bound_sheets(), window_bound_sheets(),
              operator_bound_sheets(), kinds_line_sheets())
    return [(name, refusal, sheet_bytes(lines))
            for group in groups for name, refusal, lines in group
            ] + length_bound_sheets()


def release_sheets():
    """The same of sheets about the release line and the intervals of release
    2."""
    return [(name, refusal, sheet_bytes(lines))
            for name, refusal, lines in release_line_sheets()]


def counted_sheets():
    """Sheets with 4,096 situations, with more, and without a solution.  With
    `next` W times before x, of L letters, there are 1 + L + .. + L^W whole
    records and L^W cut ones."""
    def free(high, nexts, *more):
        return one_stream(chain("next", nexts) + " >= 0", *more, high=high)

    marks = ["1 until ( x eq %d )" % value for value in range(8)]
    return [(name, sheet_bytes(lines)) for name, lines in (
        ("situations-4096", free(44, 2)),
        ("situations-4096-no-solution", free(44, 2, "1 until 0")),
        ("situations-4279", free(45, 2)),
        ("situations-4279-no-solution", free(45, 2, "1 until 0")),
        ("situations-4097", one_stream("first x >= 0", *marks, high=19)),
        ("situations-over-4-letters", free(3, 6)),
        ("situations-over-6-letters", free(5, 5)),
        ("situations-over-8-letters", free(7, 4)),
        ("situations-over-16-letters", free(15, 3)),
        ("situations-over-64-letters", free(63, 2)),
        ("situations-over-1024-letters", free(1023, 1, *marks[:2])),
        ("situations-over-fby", one_stream(
            "x >= 0 * " + fby_chain(6), high=3)),
        ("situations-over-first", one_stream(
            "next x >= 0 * first x", high=63)),
        ("situations-over-streams", [
            "a b c", "0 0 0", "1 1 1",
            "next next next ( a + ( b + c ) ) >= 0 fby a"]),
    )]


def large_table_sheets():
    """Sheets with many states, a long way to the last one, or many rounds to
    tell states apart."""
    clock = "next x == ( x + 1 ) % 64"
    return [(name, sheet_bytes(lines)) for name, lines in (
        ("clock-64", one_stream(clock, "first x == 0", high=63)),
        ("clock-any-start", one_stream(clock, high=63)),
        ("clock-30-until", one_stream(
            "next x == ( x + 1 ) % 30", "( first x ) == 0",
            "( x lt 25 ) until ( x eq 20 )", high=29)),
        ("marks-5", one_stream(
            *["1 until ( x eq %d )" % value for value in range(5)], high=5)),
        ("marks-in-order", one_stream(
            *["( x ne %d ) until ( x eq %d )" % (value + 1, value)
              for value in range(6)], high=6)),
        ("hidden-first", [
            "x y", "0 0", "15 1", "next x == x",
            "1 until ( y and ( 0 fby y ) )", "( first x lt 8 ) -> not y"]),
    )]


def main(seed, count):
    sheets = (random_sheets(seed, count) + division_sheets(seed, count)
              + random_release_sheets(seed, count)
              + [(name, sheet) for name, _, sheet
                 in bound_sheets() + release_sheets()]
              + counted_sheets() + large_table_sheets())
    print_sheets(sheets)


def print_sheets(sheets):
    for name, sheet in sheets:
        print(json.dumps({"name": name, "sheet": sheet.decode("latin-1")},
                         sort_keys=True))


if __name__ == "__main__":
    main(*numbers(__doc__, "seed", "count"))
