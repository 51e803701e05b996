"""The program `strategy`: the play table of a sheet (document 02, S-7).

    python3 enumerator/strategy.py SHEET

"Which letter it holds is free": the letters printed here are those of
`game.py`, and `strategy_check.py` judges any others.
"""

from commands import print_answer
from compiler import analyse
from game import choices, game_analysed
from limits import NO_ENTRY
from reading import letter_count, read
from situations import letters
from sluice import lent_rows


def play_lines(sheet, answer):
    """`sluice`'s heading, then for each state that keeps a row and each choice
    in order `sluice`'s line of the letter held."""
    lines = [["state", "final", *sheet.names, "next"]]
    values = letters(sheet)
    for state, row in enumerate(answer.play):
        for letter in row:
            if letter != NO_ENTRY:
                lines.append([state, answer.finals[state], *values[letter],
                              answer.entries[state][letter]])
    return lines


def strategy_lines(text):
    """The sheet is compiled in the rows that `sluice` lends, and the play
    table has as many."""
    refusal, sheet = read(text)
    if refusal:
        return [["refused", refusal]]
    rows = lent_rows(letter_count(sheet))
    answer = game_analysed(analyse(text, rows), rows,
                           rows * len(choices(sheet)))
    if answer.refusal:
        return [["refused", answer.refusal]]
    return play_lines(sheet, answer)


def strategy(text):
    """The bytes that `strategy` prints for the bytes of a sheet."""
    return "".join(" ".join(map(str, line)) + "\n"
                   for line in strategy_lines(text)).encode()


if __name__ == "__main__":
    print_answer(__doc__, strategy, ("sheet",))
