"""The program `shortest`: the shortest course from a state of a sheet's table
to a final state, with the fewest changes (document 02, S-3 and S-8).

    python3 enumerator/shortest.py SHEET [STATE]
"""

from commands import print_answer
from course import best_course
from replay import opened
from situations import letters


def shortest_lines(sheet_text, start):
    """The names, then the values of each letter of the course; there always is
    one, since the table is a compile's."""
    refusal, sheet, compiled, state = opened(sheet_text, start)
    if refusal:
        return [["refused", refusal]]
    entries = [entry for row in compiled.entries for entry in row]
    values = letters(sheet)
    course = best_course(entries, compiled.finals, values, sheet.kinds, state)
    return [sheet.names] + [values[letter] for letter in course]


def shortest(sheet_text, start=None):
    """The bytes that `shortest` prints for the bytes of a sheet and the text
    of a state, or no state."""
    return "".join(" ".join(map(str, line)) + "\n" for line
                   in shortest_lines(sheet_text, start)).encode()


if __name__ == "__main__":
    print_answer(__doc__, shortest, ("sheet",), "state")
