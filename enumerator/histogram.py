"""The program `histogram`: how many lines of a record hold each value of each
stream (document 02, S-12).

    python3 enumerator/histogram.py SHEET RECORD
"""

from commands import print_answer
from grammar import split_lines
from reading import read
from replay import has_names, line_fault, printed_lines


def counted(sheet, letters):
    """"for each stream, in order, and each value of its range, rising, how
    many value lines hold it. A last line is `total` and the number of value
    lines." """
    lines = [["stream", "value", "lines"]]
    for place, name in enumerate(sheet.names):
        for value in range(sheet.lows[place], sheet.highs[place] + 1):
            holding = [letter for letter in letters if letter[place] == value]
            lines.append([name, value, len(holding)])
    return lines + [["total", len(letters)]]


def histogram_lines(sheet_text, record):
    """"Of the sheet only 1 to 7 are judged, and a bad record prints nothing
    but the 13 or 14 of its first line with a fault, 13 before 14." """
    refusal, sheet = read(sheet_text)
    if refusal:
        return [["refused", refusal]]
    lines = split_lines(record)
    if not has_names(sheet, lines):
        return [["refused", 13]]
    judged = [line_fault(sheet, line) for line in lines[1:]]
    for fault, _ in judged:
        if fault:
            return [["refused", fault]]
    return counted(sheet, [letter for _, letter in judged])


def histogram(sheet_text, record):
    """The bytes that `histogram` prints for the bytes of a sheet and of a
    record."""
    return printed_lines(histogram_lines(sheet_text, record))


if __name__ == "__main__":
    print_answer(__doc__, histogram, ("sheet", "record"))
