"""A seeded generator of damaged sheets, for refusals 1 to 7 and for pairs of
them.  A seed fully determines what is given.

    python3 enumerator/damage.py SEED EACH

prints EACH sheets for each refusal and some for each pair of refusals, one
JSON object a line as generate.py does.

A damage is a function from a random generator and the lines of a sheet to the
lines of the damaged sheet.
"""

import random

from commands import numbers
from generate import fby_chain, nested, print_sheets, random_lines, sheet_bytes
from grammar import CONSTRAINT_WORDS


def append_line(*choices):
    """A damage that adds one of the lines; NAME is a stream of the sheet."""
    def damage(rng, lines):
        name = (lines[0].split() or ["x"])[0] if lines else "x"
        return lines + [rng.choice(choices).replace("NAME", name)]
    return damage


def with_header(lines):
    """The lines, filled up with empty ones to three: what is added after
    them is then a constraint line."""
    return lines + [""] * (3 - len(lines))


def insert_byte(rng, lines):
    lines = with_header(lines)
    index = rng.randrange(len(lines))
    place = rng.randrange(len(lines[index]) + 1)
    byte = rng.choice("\0\t\r\x1f\x7f\x80\xa0\xff")
    lines[index] = lines[index][:place] + byte + lines[index][place:]
    return lines


def lengthen(rng, lines):
    lines = with_header(lines)
    # The end of the last line may be left out, so it is not counted.
    missing = 16385 - len(sheet_bytes(lines, last_end=False))
    return lines[:-1] + [lines[-1] + " " * (missing + rng.randrange(100))]


def crowd_names(rng, lines):
    lines = with_header(lines)
    fill = rng.choice(("q", "(", ")", "-", "7"))
    return [lines[0] + (" " + fill) * 9] + lines[1:]


def crowd_lines(rng, lines):
    fill = rng.choice(("", "x == x", "0 == 0", ")"))
    return lines + [fill] * (36 - len(lines) + rng.randrange(3))


def crowd_tokens(rng, lines):
    fill = rng.choice(("not ", "( ) ", "7 "))
    return with_header(lines) + [fill * (1025 // len(fill.split()) + 1)]


def crowd_brackets(rng, lines):
    return with_header(lines) + [
        rng.choice(("0 == " + nested(33, "1"), "(" * 33,
                    "( ( ) " * 33, "x == x " + "(" * 40))]


def drop_line(rng, lines):
    return lines[:rng.randrange(3)]


def blank_line(rng, lines):
    place = rng.randrange(len(lines) + 1)
    return lines[:place] + [rng.choice(("", "  "))] + lines[place:]


def change_header(*choices):
    """A damage that adds one of the tokens to line 1, 2 or 3."""
    def damage(rng, lines):
        index, token = rng.choice(choices)
        if len(lines) <= index:
            return lines
        return lines[:index] + [lines[index] + " " + token] + lines[index + 1:]
    return damage


def add_stream(*choices):
    """A damage that adds a stream with one of the given names and ranges."""
    def damage(rng, lines):
        name, low, high = rng.choice(choices)
        if len(lines) < 3:
            return lines
        name = name or (lines[0].split() or ["x"])[0]
        added = [name, low, high]
        return [line + " " + token for line, token in zip(lines, added)
                ] + lines[3:]
    return damage


DAMAGES = {
    1: (insert_byte, lengthen),
    2: (crowd_names, crowd_lines, crowd_tokens, crowd_brackets),
    3: (drop_line, blank_line,
        change_header((0, "q"), (0, "7"), (0, "Upper"), (0, "ninechars"),
                      (0, "a1"), (0, "("), (1, "0"), (2, "0"), (1, "-"),
                      (2, "q"), (1, ")")),
        append_line("NAME", "NAME + 1", "NAME == 1 + 1 + 1", "NAME == 01",
                    "NAME == -0", "NAME == +1", "NAME == - 1", "NAME = 1",
                    "NAME == ( 1", "NAME == 1 )", "( NAME == 1 )",
                    "NAME == ( )", "== 1", "NAME ==", "NAME == 1 == 1",
                    "NAME == 1 < 2", "NAME until 1 until 1", "NAME -1 == 0",
                    "NAME == if", "NAME == fby", "until until until"),
        append_line("NAME == if NAME then 1", "NAME == if 1 then 2 else",
                    "if NAME then 1 else 2 + 1 == 0", "NAME NAME == 1",
                    "first == 1", "NAME == next", "NAME == not NAME not",
                    "NAME == 1 not NAME", "NAME == Q", "NAME == ninechars",
                    "NAME == x1", "NAME and 1", "NAME == NAME implies 1",
                    "NAME -> NAME -> NAME", "NAME == ( NAME ) ( NAME )",
                    "NAME == ( if 1 then 1 else 1 ) else 1",
                    "if if 1 then 1 else 1 then 1 else 1 == 1",
                    "NAME+1 == 0", "NAME==0", "NAME @ 1 == 0")),
    4: (append_line("unknown == 1", "NAME == unknown", "NAME until unknown",
                    "( NAME and ( not ( 0 fby unknown ) ) ) -> 1"),
        add_stream(("", "0", "0"),
                       *((word, "0", "0") for word in CONSTRAINT_WORDS))),
    5: (append_line("NAME == 1000000001", "NAME == -1000000001",
                    "NAME == 99999999999999999999999999",
                    "NAME -> ( 18446744073709551616 eq 0 )"),
        add_stream(("q", "1", "0"), ("q", "-1", "-2"),
                       ("q", "0", "1000000001"), ("q", "-1000000001", "0"),
                       ("q", "4294967296", "4294967296"))),
    6: (append_line("NAME == 1000000000 + 1", "NAME == -1000000000 - 1",
                    "NAME == 100000 * 100000", "0 == 0 * ( 50000 * 50000 )",
                    "NAME == if 0 then ( 1000000000 * 9 ) else 0",
                    "NAME == not ( 1000000000 * 1000000000 )",
                    "NAME == first ( 1000000000 + 1000000000 )",
                    "( 1000000000 * -2 ) until 1"),),
    7: (append_line("next next next next next next next NAME == 0",
                    "NAME == " + fby_chain(7).replace("x", "NAME"),
                    "first first first first first first first first first "
                    "NAME == 0",
                    "0 == first next next next next next next next NAME"),
        add_stream(("wide", "0", "1024"),
                       ("wide", "-1000000000", "1000000000")),
        lambda rng, lines: lines + ["1 until 1"] * 9),
}


def finished(rng, lines):
    """The sheet, with the end of its last line or without.  An empty last
    line is a line only with its end."""
    return sheet_bytes(lines, lines[-1:] == [""] or rng.random() < 0.8)


def damaged(rng, refusals):
    """A sheet with one damage for each of the refusals.  The higher ones are
    done first, so that the lower ones do not take them away."""
    lines = random_lines(rng)
    for refusal in sorted(refusals, reverse=True):
        lines = rng.choice(DAMAGES[refusal])(rng, lines)
    return finished(rng, lines)


def damaged_sheets(seed, each):
    """Sheets damaged for each refusal 1 to 7, each of the damages in turn,
    and for each pair of refusals."""
    rng = random.Random(seed)
    sheets = []
    for refusal, choices in DAMAGES.items():
        for number in range(each):
            damage = choices[number % len(choices)]
            lines = damage(rng, random_lines(rng))
            sheets.append(("damaged-%d-%d" % (refusal, number),
                           finished(rng, lines)))
    for lower in DAMAGES:
        for higher in range(lower + 1, 8):
            for number in range(max(1, each // 8)):
                sheets.append(
                    ("damaged-%d-and-%d-%d" % (lower, higher, number),
                     damaged(rng, (lower, higher))))
    return sheets


if __name__ == "__main__":
    print_sheets(damaged_sheets(*numbers(__doc__, "seed", "each")))
