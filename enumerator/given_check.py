"""What the second routes of calls with given tables share: tables judged by
steps on their bytes, streams by reading a sheet that has them, and letters by
the values of names."""

from course_check import is_malformed, sheet_with
from given import given_of
from limits import STEP_REFUSED
from reading import letter_count
from replay import opened
from step import step, table_bytes


def fit_sheet(given):
    """The sheet that has the streams of a given table, or None if the table or
    its streams are refused by 11."""
    if given.letters == 0 or is_malformed(given):
        return None
    sheet = sheet_with(given.streams)
    if sheet is None or letter_count(sheet) != given.letters:
        return None
    return sheet


def table_of_sheet(text):
    """The table of a sheet, compiled in the rows that `sluice` lends, as a
    given table; or None if it is refused."""
    refusal, sheet, compiled, _ = opened(text, None)
    return None if refusal else given_of(sheet, compiled)


def stream_facts(sheet):
    """For each name the range and kind."""
    return dict(zip(sheet.names, zip(sheet.lows, sheet.highs, sheet.kinds)))


def number_of_values(sheet, values):
    """The number of the letter that has these values by name: the last stream
    counts fastest."""
    number, stride = 0, 1
    for name, low, high in reversed(list(zip(*sheet[:3]))):
        number += (values[name] - low) * stride
        stride *= high - low + 1
    return number


class Steps:
    """A given table that is followed by steps on its bytes."""

    def __init__(self, given):
        self.given, self.bytes = given, table_bytes([given.entries])

    def after(self, state, letter):
        """The next state, or None."""
        found = step(self.bytes, self.given.letters, state, letter)
        return None if found >= STEP_REFUSED else found
