"""The second route for `replay`: a record read byte by byte, and steps on the
bytes of the table; compared with `replay.py` on drawn records."""

from compiler import analyse, compile_analysed
from limits import STEP_REFUSED
from reading import letter_count, read
from replay import replay
from sluice import lent_rows
from step import step, table_bytes


class Reader:
    """The state of reading one line: its tokens so far, and whether a byte is
    barred."""

    def __init__(self):
        self.tokens, self.run, self.barred = [], b"", False

    def end_run(self):
        if self.run:
            self.tokens.append(self.run)
            self.run = b""

    def byte(self, byte):
        self.barred |= not 32 <= byte <= 126
        if byte in b"()" or not 33 <= byte <= 126:
            self.end_run()
            if byte in b"()":
                self.tokens.append(bytes([byte]))
        else:
            self.run += bytes([byte])


def by_bytes(record):
    """The lines of a record as tokens and whether a byte is barred."""
    lines, reader, begun = [], Reader(), False
    for byte in record:
        if byte == 10:
            reader.end_run()
            lines.append((reader.tokens, reader.barred))
            reader, begun = Reader(), False
        else:
            reader.byte(byte)
            begun = True
    if begun:
        reader.end_run()
        lines.append((reader.tokens, reader.barred))
    return lines


def number_of(token):
    """The number that a token writes, by its digits, or None."""
    digits = token[1:] if token[:1] == b"-" else token
    if not digits or any(not 48 <= byte <= 57 for byte in digits):
        return None
    if digits[0] == 48 and (len(digits) > 1 or len(token) > 1):
        return None
    value = 0
    for byte in digits:
        value = value * 10 + byte - 48
    return -value if token[:1] == b"-" else value


def replay_by_steps(sheet_text, record, start=None):
    refusal, sheet = read(sheet_text)
    rows = 0 if refusal else lent_rows(letter_count(sheet))
    compiled = None if refusal else compile_analysed(analyse(sheet_text, rows), rows)
    refusal = refusal or compiled.refusal
    if refusal:
        return b"refused %d\n" % refusal
    state = 0 if start is None else number_of(start)
    if state is None or not 0 <= state < compiled.states:
        return b"refused 11\n"
    lines = by_bytes(record)
    if not lines or lines[0][1] or lines[0][0] != [name.encode() for name in sheet.names]:
        return b"refused 13\n"
    out, table, total = b"line state\n", table_bytes(compiled.entries), letter_count(sheet)
    for place, (tokens, barred) in enumerate(lines[1:], 1):
        values = [number_of(token) for token in tokens]
        if barred or len(values) != len(sheet.names) or None in values:
            return out + b"refused 13\n"
        number = 0
        for low, value, high in zip(sheet.lows, values, sheet.highs):
            if value < low or high < value:
                return out + b"refused 14\n"
            number = number * (high - low + 1) + value - low
        state = step(table, total, state, number)
        if state >= STEP_REFUSED:
            return out + b"refused %d\n" % (state - STEP_REFUSED)
        out += b"%d %d\n" % (place, state)
    return out


SHEETS = (b"x y\n0 0\n1 1\nx until y",
          b"a\n-3\n4\nnext a != a\n1 until ( a lt 0 )",
          b"p q r\n0 -1 5\n0 1 6\n( p + q ) <= r",
          b"x\n0\n1\nnext x == x + 1",
          b"x\n0\n")
PIECES = (b"x y", b"a", b"p q r", b" ", b"  ", b"\n", b"0", b"1", b"-1", b"2",
          b"5", b"6", b"-0", b"01", b"-", b"4294967296", b"9" * 30, b"(", b")",
          b"x", b"\r", b"\t", b"\x80", b"1 0\n", b"0 1\n", b"-1\n", b"0 1 5\n")
STARTS = (None, None, None, b"0", b"1", b"2", b"3", b"", b"01", b"-0", b"+1",
          b" 1", b"x", b"9" * 40)


def drawn_case(rng):
    """A sheet, a record that often has the sheet's names, and a start."""
    text = rng.choice(SHEETS)
    record = b"".join(rng.choice(PIECES) for _ in range(rng.randrange(9)))
    if rng.random() < 0.8:
        record = text.split(b"\n")[0] + b"\n" + record
    return text, record, rng.choice(STARTS)


def difference(rng, drawn=None):
    """A drawn case on which both routes differ, or None."""
    case = drawn or drawn_case(rng)
    return None if replay(*case) == replay_by_steps(*case) else case
