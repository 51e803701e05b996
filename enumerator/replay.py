"""The program `replay`: plays a record against a sheet (document 02, S-1).

    python3 enumerator/replay.py SHEET RECORD [START]
"""

from commands import print_answer
from compiler import analyse, compile_analysed
from grammar import has_integer_form, split_lines, split_tokens
from limits import NO_ENTRY
from reading import letter_count, read
from situations import letters
from sluice import lent_rows


def is_plain(line):
    """No byte that refusal 1 bars."""
    return all(32 <= byte <= 126 for byte in line)


def token_texts(line):
    return [token.text for token in split_tokens(line, 0)]


def start_state(text, states):
    """The state to start from, or None: "11, a start that is no state of the
    table"; it is written as an integer of a sheet."""
    if text is None:
        return 0
    if not is_plain(text) or not has_integer_form(text.decode("latin-1")):
        return None
    state = int(text)
    return state if 0 <= state < states else None


def has_names(sheet, lines):
    """The first line has the sheet's names: "13, names that differ"; a record
    without lines has none."""
    return (bool(lines) and is_plain(lines[0])
            and token_texts(lines[0]) == sheet.names)


def line_fault(sheet, line):
    """"13, [..] a line that is not one integer per stream (a byte refusal 1
    bars makes either so); 14, a value outside its range", in that order, or 0
    and the letter."""
    texts = token_texts(line)
    if (not is_plain(line) or len(texts) != len(sheet.names)
            or not all(map(has_integer_form, texts))):
        return 13, None
    values = tuple(map(int, texts))
    if any(not low <= value <= high for low, value, high
           in zip(sheet.lows, values, sheet.highs)):
        return 14, None
    return 0, values


def played(sheet, entries, state, lines):
    """"one such line per value line, counted from 1, with the state reached",
    up to the first line with a fault or without a way on."""
    numbers = {letter: number for number, letter in enumerate(letters(sheet))}
    printed = []
    for place, line in enumerate(lines, 1):
        fault, letter = line_fault(sheet, line)
        if not fault:
            state = entries[state][numbers[letter]]
            fault = 12 if state == NO_ENTRY else 0
        if fault:
            return printed + [["refused", fault]]
        printed.append([place, state])
    return printed


def opened(sheet_text, start):
    """The refusal of the sheet, in the rows that programs lend, or "11, a
    start that is no state of the table"; or 0, the sheet, what its compile
    gives and the state."""
    refusal, sheet = read(sheet_text)
    if refusal:
        return refusal, None, None, None
    rows = lent_rows(letter_count(sheet))
    compiled = compile_analysed(analyse(sheet_text, rows), rows)
    state = start_state(start, compiled.states)
    refusal = compiled.refusal or (11 if state is None else 0)
    return refusal, sheet, compiled, state


def replay_lines(sheet_text, record, start):
    refusal, sheet, compiled, state = opened(sheet_text, start)
    if refusal:
        return [["refused", refusal]]
    lines = split_lines(record)
    if not has_names(sheet, lines):
        return [["refused", 13]]
    return [["line", "state"]] + played(sheet, compiled.entries, state, lines[1:])


def printed_lines(lines):
    """The bytes of lines of words and numbers."""
    return "".join(" ".join(map(str, line)) + "\n" for line in lines).encode()


def replay(sheet_text, record, start=None):
    """The bytes that `replay` prints for the bytes of a sheet and of a record
    and the text of a start, or no start."""
    return printed_lines(replay_lines(sheet_text, record, start))


if __name__ == "__main__":
    print_answer(__doc__, replay, ("sheet", "record"), "start")
