"""The program `sluice`: reads a sheet from standard input, prints its table.

    python3 enumerator/sluice.py < sheet
"""

import sys

from commands import parser
from compiler import analyse, compile_analysed
from limits import NO_ENTRY, SLUICE_ENTRIES, SLUICE_ROWS
from reading import letter_count, read
from situations import letters


def lent_rows(letter_total):
    """"`sluice` lends 256 rows, or 32,768 divided by the letters, cut to a
    whole number, if that is fewer." """
    return min(SLUICE_ROWS, SLUICE_ENTRIES // letter_total)


def table_lines(sheet, compiled):
    """"a heading with the names, then a line for each entry that is not
    65,535, by state and letter: state, final (1 or 0), the letter's values,
    next state." """
    lines = [["state", "final", *sheet.names, "next"]]
    for state, row in enumerate(compiled.entries):
        for letter, target in zip(letters(sheet), row):
            if target != NO_ENTRY:
                lines.append([state, compiled.finals[state], *letter, target])
    return lines


def sluice_output(analysis):
    """The bytes that `sluice` prints for an analysed sheet."""
    refusal = analysis.refusal
    if not refusal:
        rows = lent_rows(letter_count(analysis.sheet))
        compiled = compile_analysed(analysis, rows)
        refusal = compiled.refusal
    if refusal:
        lines = [["refused", refusal]]
    else:
        lines = table_lines(analysis.sheet, compiled)
    return "".join(" ".join(map(str, line)) + "\n" for line in lines).encode()


def sluice(text):
    """The bytes that `sluice` prints for the bytes of a sheet.  More
    situations than rows are lent need not be counted."""
    refusal, sheet = read(text)
    bound = 0 if refusal else lent_rows(letter_count(sheet))
    return sluice_output(analyse(text, bound))


if __name__ == "__main__":
    parser(__doc__).parse_args()
    sys.stdout.buffer.write(sluice(sys.stdin.buffer.read()))
