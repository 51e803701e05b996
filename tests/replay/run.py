"""Runs the program `replay` on files and compares it with the enumerator.

    python3 tests/replay/run.py [--program PROGRAM] [NAME ..]

The stored cases, a year of hourly lines, a record cut in two, files that cannot
be read, a read and a write that fail, and a record that is not read to its end.
PROGRAM is target/bin/replay, which `tools/build replay` makes. CC may name another
C compiler.
"""

import pathlib
import random
import sys

ROOT = pathlib.Path(__file__).resolve().parents[2]
sys.path[:0] = [str(ROOT / "enumerator"), str(ROOT / "tests")]
from programs import Runs, endless_record, full_device, run_parts, unreadable_records, vectors  # noqa: E402
from replay import replay  # noqa: E402

UNTIL = b"x y\n0 0\n1 1\nx until y"
# A gauge and a gate: the gate opens one hour after the gauge is at 2 or more, and moves at some time.
WEIR = b"level gate\n-1 0\n3 1\n( level ge 2 ) -> next gate\n1 until gate"
HOURS = 8760
SHEET_UNREAD = b"replay: the sheet cannot be read\n"
RECORD_UNREAD = b"replay: the record cannot be read\n"
NOT_WRITTEN = b"replay: the states cannot be written\n"


class ReplayRuns(Runs):
    def compare(self, name, sheet, record, start=None):
        """The program on files against the enumerator on bytes."""
        arguments = [self.file("sheet", sheet), self.file("record", record)]
        arguments += [] if start is None else [start]
        wanted = replay(sheet, record, start)
        self.expect(name, self.run(arguments), (wanted, b""))
        return wanted


def stored_cases(runs):
    for number, case in enumerate(vectors("replay.jsonl")):
        printed = runs.compare("stored case %d" % number, case["sheet"], case["record"], case["start"])
        runs.expect("stored case %d, as stored" % number, printed, case["printed"])
    runs.compare("a start of 5,000 nines", UNTIL, b"x y\n0 1", b"9" * 5000)


def weir_lines(rng, count):
    """Values that the weir's rule allows, hour by hour."""
    lines, high = [], False
    for _ in range(count):
        level = rng.randint(-1, 3)
        lines.append(b"%d %d" % (level, 1 if high else rng.randrange(2)))
        high = level >= 2
    return lines


def year(runs):
    """More than one chunk; then the year in two, at several places."""
    names, lines = WEIR.split(b"\n")[0], weir_lines(random.Random(1), HOURS)
    whole = runs.compare("a year of hourly lines", WEIR, b"\n".join([names, *lines]) + b"\n")
    states = [line.split()[1] for line in whole.splitlines()[1:]]
    runs.expect("a line for each hour", len(states), HOURS)
    for cut in (0, 1, 4380, HOURS - 1, HOURS):
        first = runs.compare("the hours before a cut", WEIR, b"\n".join([names, *lines[:cut]]))
        last = first.splitlines()[-1].split()[1] if cut else b"0"
        second = runs.compare("the hours after a cut", WEIR, b"\n".join([names, *lines[cut:]]), last)
        both = first.splitlines()[1:] + second.splitlines()[1:]
        runs.expect("the states of both halves", [line.split()[1] for line in both], states)
    wide = b"  ".join((b"1", b"1")).center(70000)
    runs.compare("lines longer than a chunk", UNTIL, b"\n".join([b"x y", wide, wide, b"0 0"]))


def unreadable(runs):
    sheet, record = runs.file("sheet", UNTIL), runs.file("record", b"x y\n1 1\n")
    unreadable_records(runs, sheet, record, SHEET_UNREAD, RECORD_UNREAD)
    got = runs.run([sheet, str(runs.folder / "missing"), "2"])
    runs.expect("a bad start and a missing record", got, (b"refused 11\n", b""))
    runs.expect("further arguments", runs.run([sheet, record, "1", "x"]), (b"line state\n1 1\n", b""))


def later_read_fails(runs):
    shim, sheet = runs.failing_read("x y", 65536), runs.file("sheet", UNTIL)
    for name, record, printed, told in (
            ("behind a whole line", b"x y\n1 0\n", b"line state\n1 0\nrefused 13\n", RECORD_UNREAD),
            ("within a line", b"x y\n1 0\n0 1", b"line state\n1 0\nrefused 13\n", RECORD_UNREAD),
            ("behind the names", b"x y\n", b"line state\nrefused 13\n", RECORD_UNREAD),
            ("within the names", b"x y ", b"refused 13\n", RECORD_UNREAD),
            ("behind a refusal", b"x y\n0 0\n", b"line state\nrefused 12\n", b"")):
        got = runs.run([sheet, runs.file("record", record)], shim=shim)
        runs.expect("a read that fails " + name, got, (printed, told))


def writes_that_fail(runs):
    sheet, record = runs.file("sheet", UNTIL), runs.file("record", b"x y\n" + b"1 1\n" * 20000)
    full_device(runs, (("lines", [sheet, record]), ("a refusal", [sheet, record, "2"])), NOT_WRITTEN)


def stops_at_a_refusal(runs):
    got = endless_record(runs, runs.file("sheet", UNTIL), b"x y\n1 0\n0 0\n", b"1 1\n")
    runs.expect("a record that is not read to its end", got, (b"line state\n1 0\nrefused 12\n", b""))


run_parts("replay", ReplayRuns, (stored_cases, year, unreadable, later_read_fails, writes_that_fail, stops_at_a_refusal))
