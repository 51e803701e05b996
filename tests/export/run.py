"""Runs the program `export` on files and compares what it prints with the enumerator.

    python3 tests/export/run.py [--program PROGRAM] [NAME ..]

The stored sheets and the examples, of which `examples/cabinet.h` is stored; random sheets of
each release, with and without kinds; a long header; files that cannot be read, a read
and a write that fail. The headers of the examples are also read back by their form, and their
tables are those that `sluice` prints. PROGRAM is target/bin/export, which `tools/build export` makes. CC may name
another C compiler.
"""

import pathlib
import sys

ROOT = pathlib.Path(__file__).resolve().parents[2]
sys.path[:0] = [str(ROOT / "enumerator"), str(ROOT / "tests")]
from export import export  # noqa: E402
from export_check import number, printed_back  # noqa: E402
from generate import random_kinds_sheets, random_release_sheets, random_sheets  # noqa: E402
from programs import Runs, compare_sheets, full_device, later_read_of_a_sheet_fails, run_parts, unreadable_sheets, vectors  # noqa: E402
from sluice import sluice  # noqa: E402

SHEET = b"x y\n0 0\n1 1\nx until y"
NO_SOLUTION = b"x\n0\n1\nnext x == x + 1"
# 128 letters in 129 states, and nearly all entries are 65,535.
LONG = b"x\n0\n127\nx == first x"
NOT_READ = b"export: the sheet cannot be read\n"
NOT_WRITTEN = b"export: the header cannot be written whole\n"
RANDOM = 60
SEED = 34


class ExportRuns(Runs):
    def compare(self, name, sheet):
        """What the program prints for a sheet."""
        printed, told = self.run([self.file("sheet", sheet)])
        self.expect(name, (printed, told), (export(sheet), b""))
        return printed


def stored_sheets(runs):
    for case in vectors("sheets.jsonl"):
        runs.compare(case["name"].decode(), case["sheet"])


def examples(runs):
    for path in sorted((ROOT / "examples").glob("*.sheet")):
        printed = runs.compare(path.name, path.read_bytes())
        if not printed.startswith(b"refused "):
            runs.expect(path.name + ", its table read back", printed_back(printed), sluice(path.read_bytes()))
    printed = runs.compare("the cabinet's sheet", (ROOT / "examples" / "cabinet.sheet").read_bytes())
    runs.expect("examples/cabinet.h", printed, (ROOT / "examples" / "cabinet.h").read_bytes())


def random_comparisons(runs):
    drawn = (random_sheets, random_kinds_sheets, random_release_sheets)
    compare_sheets(runs, [text for draw in drawn for _, text in draw(SEED, RANDOM)], export)


def long_header(runs):
    printed = runs.compare("a long header", LONG)
    runs.expect("its letters and states", (number(printed, "LETTERS"), number(printed, "STATES")), (128, 129))
    runs.expect("its length is more than 160,000 bytes", len(printed) > 160000, True)


def reads_that_fail(runs):
    unreadable_sheets(runs, NOT_READ)
    runs.expect("further arguments", runs.run([runs.file("sheet", SHEET), "1", "x"]), (export(SHEET), b""))
    later_read_of_a_sheet_fails(runs, SHEET, NOT_READ)


def writes_that_fail(runs):
    cases = (("a header", SHEET), ("a long one", LONG), ("a refusal", NO_SOLUTION))
    full_device(runs, [(name, [runs.file(name, sheet)]) for name, sheet in cases], NOT_WRITTEN)


run_parts("export", ExportRuns, (stored_sheets, examples, random_comparisons, long_header, reads_that_fail, writes_that_fail))
