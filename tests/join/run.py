"""Runs the program `join` on files and compares it with the enumerator.

    python3 tests/join/run.py [--program PROGRAM] [NAME ..]

The stored pairs of sheets and that of the examples; each stored sheet joined with itself, which prints what
`sluice` prints; single sheets with the rules of both, printed by `sluice`; files that
cannot be read, a read and a write that fail. PROGRAM is target/bin/join; it and
target/bin/sluice are made by `tools/build join sluice`. CC may name another C compiler.
"""

import pathlib
import random
import subprocess
import sys

ROOT = pathlib.Path(__file__).resolve().parents[2]
sys.path[:0] = [str(ROOT / "enumerator"), str(ROOT / "tests")]
from join import join_sheets  # noqa: E402
from join_cases import drawn_sheets  # noqa: E402
from join_check import Lines, by_single_sheet, single_sheet  # noqa: E402
from programs import Runs, built, full_device, later_read_of_a_sheet_fails, run_parts, unreadable_pairs, vectors  # noqa: E402

UNTIL = b"x y\n0 0\n1 1\nx until y"
GATE = b"z x\n0 0\n1 1\nz -> x"
JOINED = join_sheets(UNTIL, GATE)
NOT_READ = b"join: the first sheet cannot be read\n", b"join: the second sheet cannot be read\n"
NOT_WRITTEN = b"join: the table cannot be written whole\n"
SINGLE_SHEETS = 100


class JoinRuns(Runs):
    def compare(self, name, first, second):
        """The program on files against the enumerator on bytes."""
        wanted = join_sheets(first, second)
        self.expect(name, self.run([self.file("first", first), self.file("second", second)]), (wanted, b""))
        return wanted


def stored_cases(runs):
    for number, case in enumerate(vectors("join_sheets.jsonl")):
        printed = runs.compare("stored case %d" % number, case["first"], case["second"])
        runs.expect("stored case %d, as stored" % number, printed, case["printed"])
    examples = ROOT / "examples"
    printed = runs.run([examples / "upper-weir.sheet", examples / "lower-weir.sheet"])
    runs.expect("the examples", printed, ((examples / "weirs.joined").read_bytes(), b""))


def with_itself(runs):
    """As many pairs are met as there are states, so the rows that are lent for the sheet are enough."""
    for case in vectors("sheets.jsonl"):
        path = runs.file("sheet", case["sheet"])
        runs.expect(case["name"].decode() + " with itself", runs.run([path, path]), (case["sluice"], b""))


def single_sheets(runs):
    """Where the single sheet is accepted in the rows that `sluice` lends, `sluice` prints what `join` prints of the two."""
    rng, done = random.Random("single sheets"), 0
    while done < SINGLE_SHEETS:
        first, second = drawn_sheets(rng)
        found = by_single_sheet(first, second)
        if found is None or found[1] is None:
            continue
        text = single_sheet(Lines(first), Lines(second))
        printed = subprocess.run([built("sluice")], input=text, capture_output=True, check=True).stdout
        if printed != b"refused 10\n":
            runs.expect("a single sheet", runs.run([runs.file("first", first), runs.file("second", second)]), (printed, b""))
        done += 1


def reads_that_fail(runs):
    unreadable_pairs(runs, UNTIL, NOT_READ)
    first, second = runs.file("first", UNTIL), runs.file("second", GATE)
    runs.expect("further arguments", runs.run([first, second, "1", "x"]), (JOINED, b""))
    # behind the read that fails all others fail too
    later_read_of_a_sheet_fails(runs, UNTIL, NOT_READ[0] + NOT_READ[1], behind=[second])
    later_read_of_a_sheet_fails(runs, GATE, NOT_READ[1], before=[first])


def writes_that_fail(runs):
    long = next(case for case in vectors("join_sheets.jsonl") if len(case["printed"]) > 4096)
    cases = (("a table", UNTIL, GATE), ("a long one", long["first"], long["second"]), ("a refusal", UNTIL, b"y\n0\n2"))
    full_device(runs, [(name, [runs.file(name, first), runs.file(name + " too", second)]) for name, first, second in cases], NOT_WRITTEN)


run_parts("join", JoinRuns, (stored_cases, with_itself, single_sheets, reads_that_fail, writes_that_fail))
