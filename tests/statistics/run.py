"""Runs the program `statistics` on files and compares it with the enumerator.

    python3 tests/statistics/run.py [--program PROGRAM] [NAME ..]

The stored sheets, with every refusal but 8, for which too few rows are lent; the examples
and random sheets; files that cannot be read, a read and a write that fail. PROGRAM is
target/bin/statistics, which `tools/build statistics` makes. CC may name another C compiler.
"""

import pathlib
import sys

ROOT = pathlib.Path(__file__).resolve().parents[2]
sys.path[:0] = [str(ROOT / "enumerator"), str(ROOT / "tests")]
from generate import division_sheets, random_kinds_sheets, random_release_sheets, random_sheets  # noqa: E402
from programs import Runs, compare_sheets, full_device, later_read_of_a_sheet_fails, run_parts, unreadable_sheets, vectors  # noqa: E402
from statistics import statistics  # noqa: E402

UNTIL = b"x y\n0 0\n1 1\nx until y"
SIZES = b"letters 4\nahead 0\nback 0\nsituations 3\nstates 2\nrows 256\n"
NO_SOLUTION = b"x\n0\n1\nnext x == x + 1"
NOT_READ = b"statistics: the sheet cannot be read\n"
NOT_WRITTEN = b"statistics: the sizes cannot be written whole\n"
SEED, COUNT, LETTERS = 34, 60, 16


class StatisticsRuns(Runs):
    def compare(self, name, sheet):
        """The program on a file against the enumerator on bytes."""
        wanted = statistics(sheet)
        self.expect(name, self.run([self.file("sheet", sheet)]), (wanted, b""))
        return wanted


def stored_sheets(runs):
    sheets = [(case["name"].decode(), case["sheet"]) for case in vectors("sheets.jsonl")]
    sheets += [(path.name, path.read_bytes()) for path in sorted((ROOT / "examples").glob("*.sheet"))]
    last = [runs.compare(name, sheet).splitlines()[-1].split() for name, sheet in sheets]
    runs.expect("the refusals met", sorted({int(number) for word, number in last if word == b"refused"}), [1, 2, 3, 4, 5, 6, 7, 9, 10])


def fresh_sheets(runs):
    drawn = (random_sheets, random_kinds_sheets, random_release_sheets, division_sheets)
    compare_sheets(runs, [text for draw in drawn for _, text in draw(SEED, COUNT, LETTERS)], statistics)


def reads_that_fail(runs):
    unreadable_sheets(runs, NOT_READ)
    runs.expect("further arguments", runs.run([runs.file("sheet", UNTIL), "1", "x"]), (SIZES, b""))
    later_read_of_a_sheet_fails(runs, UNTIL, NOT_READ)


def writes_that_fail(runs):
    cases = (("sizes", UNTIL), ("sizes and a refusal", NO_SOLUTION), ("a refusal", b""))
    full_device(runs, [(name, [runs.file(name, sheet)]) for name, sheet in cases], NOT_WRITTEN)


run_parts("statistics", StatisticsRuns, (stored_sheets, fresh_sheets, reads_that_fail, writes_that_fail))
