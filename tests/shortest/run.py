"""Runs the program `shortest` on files and compares it with the enumerator.

    python3 tests/shortest/run.py [--program PROGRAM] [NAME ..]

The stored cases, every stored sheet from state 0 and from its last state, what
is printed played as a record by `replay`, texts that are no state, missing
arguments, files that cannot be read, a read and a write that fail. PROGRAM is
target/bin/shortest; it and target/bin/replay are made by `tools/build shortest
replay`. CC may name another C compiler.
"""

import pathlib
import sys

ROOT = pathlib.Path(__file__).resolve().parents[2]
sys.path[:0] = [str(ROOT / "enumerator"), str(ROOT / "tests")]
from programs import Runs, built, full_device, later_read_of_a_sheet_fails, run_parts, unreadable_sheets, vectors  # noqa: E402
from replay import opened  # noqa: E402
from shortest import shortest  # noqa: E402

UNTIL = b"x y\n0 0\n1 1\nx until y"
NOT_READ = b"shortest: the sheet cannot be read\n"
NOT_WRITTEN = b"shortest: the course cannot be written whole\n"


class CourseRuns(Runs):
    def compare(self, name, sheet, start=None):
        """The program on a file against the enumerator on bytes."""
        given = [] if start is None else [start]
        wanted = shortest(sheet, start)
        self.expect(name, self.run([self.file("sheet", sheet), *given]), (wanted, b""))
        return wanted


def stored_cases(runs):
    for number, case in enumerate(vectors("shortest.jsonl")):
        printed = runs.compare("stored case %d" % number, case["sheet"], case["start"])
        runs.expect("stored case %d, as stored" % number, printed, case["printed"])


def played(runs, name, sheet, compiled, state, printed):
    """What is printed is a record, which leads from the state to a final one, and meets none before."""
    record = runs.file("record", printed)
    states, told = runs.run([runs.file("sheet", sheet), record, b"%d" % state], program=built("replay"))
    reached = [state] + [int(line.split()[1]) for line in states.splitlines()[1:]]
    runs.expect(name + ", a state for each line", (len(reached), told), (printed.count(b"\n"), b""))
    runs.expect(name + ", final at its end alone", [compiled.finals[row] for row in reached], [0] * (len(reached) - 1) + [1])


def stored_sheets(runs):
    for case in vectors("sheets.jsonl"):
        name, sheet = case["name"].decode(), case["sheet"]
        printed = runs.compare(name, sheet)
        refusal, _, compiled, _ = opened(sheet, None)
        if refusal:
            continue
        played(runs, name, sheet, compiled, 0, printed)
        last = compiled.states - 1
        printed = runs.compare(name + ", from its last state", sheet, b"%d" % last)
        played(runs, name + ", from its last state", sheet, compiled, last, printed)


def states(runs):
    for start in (b"0", b"1", b"2", b"01", b"00", b"", b"-0", b"-1", b"+1", b" 1", b"1 ", b"x", b"256", b"9" * 30, b"9" * 5000):
        runs.compare("the state %r" % start[:40], UNTIL, start)


def reads_that_fail(runs):
    sheet = runs.file("sheet", UNTIL)
    unreadable_sheets(runs, NOT_READ)
    runs.expect("a missing sheet and a state", runs.run([str(runs.folder / "missing"), "7"]), (b"refused 3\n", NOT_READ))
    runs.expect("further arguments", runs.run([sheet, "1", "x"]), (b"x y\n", b""))
    later_read_of_a_sheet_fails(runs, UNTIL, NOT_READ)


def writes_that_fail(runs):
    sheet = runs.file("sheet", UNTIL)
    long = runs.file("long", next(case["sheet"] for case in vectors("shortest.jsonl") if len(case["printed"]) > 4096))
    full_device(runs, (("a course", [sheet]), ("a long course", [long]), ("a refusal", [sheet, "2"])), NOT_WRITTEN)


run_parts("shortest", CourseRuns, (stored_cases, stored_sheets, states, reads_that_fail, writes_that_fail))
