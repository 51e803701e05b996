"""Cases for `strategy` whose answer is settled: sheets that are refused, or
that have only one play table.  Others are judged (`strategy_check.py`)."""

from compiler import analyse
from game import letter_choices, letters_held
from game_cases import GAUGE, SHEETS, countdown, gauged_countdown, sheet_text
from reading import letter_count, read
from sluice import lent_rows

MORE = (
    # a line for each of many choices, so that more than 4,096 bytes are
    # printed, and one for each of many states
    "r g|0 0|511 1|read set|g == r % 2",
    "x|0|119|set|next x == ( x + 1 ) % 120|first x == 7",
    # values below 0 and of many digits
    "level a gate b|-1000000000 -7 -1 1000000000"
    "|-999999998 -7 1 1000000000|read set set read"
    "|gate == ( level + 1000000000 ) - 1",
    "level gate|-2 -1|1 0|read set|gate == 0 - ( level lt 0 )",
    # the one letter that leads on: among those that stay, and that lead back
    "r x|0 0|1 4|read set|next x == if ( x eq 4 ) then 4 else ( x + 1 )"
    "|( first x ) == 0|1 until ( x eq 4 )",
    "r x|0 0|1 3|read set|next x >= x|next x <= x + 1|( first x ) == 0"
    "|1 until ( x eq 3 )",
    "r x|0 0|1 4|read set|next x <= x + 1|next x >= x - 1|( first x ) == 0"
    "|( if ( x eq 4 ) then ( ( next x ) eq x ) else ( ( next x ) ne x ) ) == 1"
    "|1 until ( x eq 4 )",
    # more situations than the rows that are lent
    countdown(1000), gauged_countdown(300), "r x|0 0|15 15|read set|next x == r",
    # a sheet of release 2, and the same in release 1 (document 02, S-11)
    "release 2|level mark|-4 -2|3 1|read set|mark == level / 2",
    "level mark|-4 -2|3 1|read set|mark == level / 2",
    # the sheet's own numbers
    "", "x", "x|0|1|read read", "read|0|1", "x|0|1024|read", "x|1|0|read",
    "x|0|1|read|1 until 0",
)


def is_settled(text):
    """Whether the sheet is refused, or has one play table and no other."""
    refusal, sheet = read(text)
    if refusal:
        return True
    table = analyse(text, lent_rows(letter_count(sheet))).table
    if table is None:
        return True
    held = letters_held(table.entries, table.finals, letter_choices(sheet))
    return 0 not in held or all(
        len(letters) == 1 for row in held.values() for letters in row)


def strategy_cases():
    texts = [sheet_text(lines) for _, lines, _, _ in SHEETS] + [
        sheet_text(lines) for lines in MORE]
    return [text for text in texts if is_settled(text)]
