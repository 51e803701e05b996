"""The program `record_counts`: how many records of 0, 1, 2 letters and so on
begin a solution of a sheet, and how many of them end in a final state (document
02, S-13).

    python3 enumerator/record_counts.py < a line with the greatest length, then a sheet
"""

import re
import sys

from commands import parser
from compiler import analyse, compile_analysed
from limits import HIGHEST_FIGURE, LONGEST_RECORD, NO_ENTRY
from reading import letter_count, read
from sluice import lent_rows


def parted(text):
    """"on a line before the sheet": the bytes before the first byte 10, and
    those behind it."""
    line, _, sheet_text = text.partition(b"\n")
    return line, sheet_text


def length_of(line):
    """The integer from 0 up that the line holds, or None: "a first line that is
    no integer from 0 up counts as 3"."""
    word = re.fullmatch(rb" *(0|[1-9][0-9]*) *", line)
    return int(word[1]) if word else None


def compiled_sheet(sheet_text):
    """The compile in the rows that `sluice` lends."""
    refusal, sheet = read(sheet_text)
    rows = 0 if refusal else lent_rows(letter_count(sheet))
    return compile_analysed(analyse(sheet_text, rows), rows)


def figures(entries, finals, length):
    """For each number of letters up to the length how many paths of so many
    letters lead from state 0, and how many of them to a final state."""
    ways = [1] + [0] * (len(entries) - 1)
    found = []
    for _ in range(length + 1):
        found.append((sum(ways), sum(count for count, final in zip(ways, finals)
                                     if final)))
        after = [0] * len(entries)
        for count, row in zip(ways, entries):
            for entry in row:
                if entry != NO_ENTRY:
                    after[entry] += count
        ways = after
    return found


def record_counts_lines(text):
    line, sheet_text = parted(text)
    length, compiled = length_of(line), compiled_sheet(sheet_text)
    if compiled.refusal in (1, 2):
        return [["refused", compiled.refusal]]
    if length is None:
        return [["refused", 3]]
    if compiled.refusal:
        return [["refused", compiled.refusal]]
    if length > LONGEST_RECORD:
        return [["refused", 19]]
    found = figures(compiled.entries, compiled.finals, length)
    if any(figure > HIGHEST_FIGURE for figure, _ in found):
        return [["refused", 19]]
    return [[letters, *pair] for letters, pair in enumerate(found)]


def record_counts(text):
    """The bytes that `record_counts` prints for the bytes that it reads."""
    return "".join(" ".join(map(str, line)) + "\n"
                   for line in record_counts_lines(text)).encode()


if __name__ == "__main__":
    parser(__doc__).parse_args()
    sys.stdout.buffer.write(record_counts(sys.stdin.buffer.read()))
