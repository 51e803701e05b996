"""The program `statistics`: the sizes of a sheet.

    python3 enumerator/statistics.py SHEET

Lines with a word and a number: `letters`, `ahead` (D), `back` (B),
`situations`, `states` and `rows`, those that `sluice` lends.  With 9 the
states, and with 10 the situations and the states, are not known and have no
line; the last line is then `refused N`.  With 1 to 7 it is the only one.
"""

from commands import print_answer
from compiler import analyse, compile_refusal
from intervals import deepest_back, deepest_reach
from reading import letter_count, read
from replay import printed_lines
from sluice import lent_rows


def statistics_lines(text):
    refusal, sheet = read(text)
    if refusal:
        return [["refused", refusal]]
    rows = lent_rows(letter_count(sheet))
    analysis = analyse(text, rows)
    refusal = compile_refusal(analysis, rows)
    lines = [["letters", letter_count(sheet)],
             ["ahead", deepest_reach(sheet.constraints)],
             ["back", deepest_back(sheet.constraints)]]
    if refusal not in (8, 10):
        lines.append(["situations", analysis.situations])
    if not refusal:
        lines.append(["states", len(analysis.table.entries)])
    lines.append(["rows", rows])
    return lines + ([["refused", refusal]] if refusal else [])


def statistics(text):
    """The bytes that `statistics` prints for the bytes of a sheet."""
    return printed_lines(statistics_lines(text))


if __name__ == "__main__":
    print_answer(__doc__, statistics, ("sheet",))
