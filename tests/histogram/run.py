"""Runs the program `histogram` on files and compares it with the enumerator.

    python3 tests/histogram/run.py [--program PROGRAM] [NAME ..]

The stored cases, the example, a year of lines at each minute and the same year in two parts,
files that cannot be read, a pipe without a writer, a read and a write that fail, and a record that is
not read to its end. PROGRAM is target/bin/histogram, which `tools/build histogram`
makes. CC may name another C compiler.
"""

import os
import pathlib
import random
import sys

ROOT = pathlib.Path(__file__).resolve().parents[2]
sys.path[:0] = [str(ROOT / "enumerator"), str(ROOT / "tests")]
from histogram import histogram  # noqa: E402
from histogram_check import adds_up, is_sum  # noqa: E402
from programs import (Runs, endless_record, full_device, later_read_of_a_sheet_fails, run_parts, unreadable_records,  # noqa: E402
                      vectors)

GATES = b"level gate\n-1 0\n3 1\nread set\nnext level == level + 1"
NAMES = b"level gate"
MINUTES = 525600
SHEET_UNREAD = b"histogram: the sheet cannot be read\n"
RECORD_UNREAD = b"histogram: the record cannot be read\n"
NOT_WRITTEN = b"histogram: the counts cannot be written whole\n"
# No minute of the year has a level of 3.
LEVELS = range(-1, 3)


class HistogramRuns(Runs):
    def compare(self, name, sheet, record):
        """The program on files against the enumerator on bytes."""
        wanted = histogram(sheet, record)
        self.expect(name, self.run([self.file("sheet", sheet), self.file("record", record)]), (wanted, b""))
        return wanted


def stored_cases(runs):
    for number, case in enumerate(vectors("histogram.jsonl")):
        printed = runs.compare("stored case %d" % number, case["sheet"], case["record"])
        runs.expect("stored case %d, as stored" % number, printed, case["printed"])


def example(runs):
    """The worked example of docs/histograms.md."""
    sheet, record, printed = (ROOT / "examples" / ("hysteresis." + ending) for ending in ("sheet", "record", "histogram"))
    runs.expect("the example", runs.run([str(sheet), str(record)]), (printed.read_bytes(), b""))
    page = (ROOT / "docs" / "histograms.md").read_text()
    for part in (record, printed):
        lines = "".join("    %s\n" % line for line in part.read_text().splitlines())
        runs.expect("%s on its page" % part.name, lines in page, True)


def record_of(lines):
    return b"\n".join([NAMES, *lines]) + b"\n"


def year(runs):
    """Many chunks; the counts of two parts are those of the year; a fault in the last line leaves nothing but its number."""
    rng = random.Random(1)
    lines = [b"%d %d" % (rng.choice(LEVELS), rng.randrange(2)) for _ in range(MINUTES)]
    whole = runs.compare("a year of lines", GATES, record_of(lines))
    runs.expect("the year's total", whole.splitlines()[-1], b"total %d" % MINUTES)
    runs.expect("a level at which no line stands", whole.splitlines()[5], b"level 3 0")
    runs.expect("each stream's counts add up to the total", adds_up(whole), True)
    cut = rng.randrange(MINUTES)
    parts = [runs.compare("a part of the year", GATES, record_of(part)) for part in (lines[:cut], lines[cut:])]
    runs.expect("the counts of both parts", is_sum(whole, *parts), True)
    for name, line, refusal in (("no integer", b"1 x", b"refused 13\n"), ("outside", b"4 1", b"refused 14\n")):
        got = runs.compare("many lines whose last is " + name, GATES, record_of(lines[:50000]) + line)
        runs.expect("nothing but the number, " + name, got, refusal)


def long_lines(runs):
    wide = b"  ".join((b"1", b"1")).center(70000)
    runs.compare("lines longer than a chunk", GATES, b"\n".join([NAMES.center(70000), wide, wide, b"0 0"]))
    runs.compare("a value of 200,000 digits", GATES, record_of([b"1 1", b"9" * 200000 + b" 0"]))


def unreadable(runs):
    sheet, record = runs.file("sheet", GATES), runs.file("record", record_of([b"1 1"]))
    unreadable_records(runs, sheet, record, SHEET_UNREAD, RECORD_UNREAD)
    refused = runs.file("refused", b"x x\n0 0\n1 1")
    runs.expect("a refused sheet and a missing record", runs.run([refused, str(runs.folder / "missing")]), (b"refused 4\n", b""))
    pipe = str(runs.folder / "without a writer")
    os.mkfifo(pipe)
    runs.expect("a refused sheet and a pipe without a writer", runs.run([refused, pipe]), (b"refused 4\n", b""))
    runs.expect("further arguments", runs.run([sheet, record, "x"]), (histogram(GATES, record_of([b"1 1"])), b""))


def later_read_fails(runs):
    shim, sheet = runs.failing_read("lev", 65536), runs.file("sheet", GATES)
    for name, record, wanted in (
            ("behind a whole line", b"\n1 0\n", (b"refused 13\n", RECORD_UNREAD)),
            ("within a line", b"\n1 0\n0 1", (b"refused 13\n", RECORD_UNREAD)),
            ("behind the names", b"\n", (b"refused 13\n", RECORD_UNREAD)),
            ("within the names", b" ", (b"refused 13\n", RECORD_UNREAD)),
            ("behind a refusal", b"\n4 0\n", (b"refused 14\n", b""))):
        got = runs.run([sheet, runs.file("record", NAMES + record)], shim=shim)
        runs.expect("a read that fails " + name, got, wanted)
    later_read_of_a_sheet_fails(runs, GATES, SHEET_UNREAD)


def writes_that_fail(runs):
    sheet, record = runs.file("sheet", GATES), runs.file("record", record_of([b"1 1"] * 20))
    full_device(runs, (("counts", [sheet, record]), ("a refusal", [sheet, runs.file("empty", b"")])), NOT_WRITTEN)


def stops_at_a_refusal(runs):
    got = endless_record(runs, runs.file("sheet", GATES), record_of([b"1 0", b"1 2"]), b"1 1\n")
    runs.expect("a record that is not read to its end", got, (b"refused 14\n", b""))


run_parts("histogram", HistogramRuns, (stored_cases, example, year, long_lines, unreadable, later_read_fails, writes_that_fail, stops_at_a_refusal))
