"""Runs the program `record_counts` on standard input and compares what it prints with the enumerator.

    python3 tests/record_counts/run.py [--program PROGRAM] [NAME ..]

The stored cases, whole and in pieces; the stored sheets and the examples with drawn
numbers of letters; a line before the sheet that is longer than any buffer; an input
that cannot be read, reads that fail later, and a write that fails. PROGRAM is
target/bin/record_counts, which `tools/build record_counts` makes. CC may name another C
compiler.
"""

import os
import pathlib
import random
import subprocess
import sys

ROOT = pathlib.Path(__file__).resolve().parents[2]
sys.path[:0] = [str(ROOT / "enumerator"), str(ROOT / "tests")]
from programs import LONGEST_RUN, Runs, run_parts, vectors  # noqa: E402
from record_counts import record_counts  # noqa: E402

UNTIL = b"x y\n0 0\n1 1\nx until y\n"
FIGURES = b"0 1 0\n1 3 2\n2 11 10\n"
NOT_READ = b"record_counts: the input cannot be read\n"
NOT_WRITTEN = b"record_counts: the figures cannot be written\n"
# The bytes that one read asks for.
CHUNK = 65536


class CountsRuns(Runs):
    def ask(self, content, stdout=subprocess.PIPE, shim=None):
        """What is printed and told for the bytes of standard input, which come from a file."""
        with open(self.file("input", content), "rb") as stdin:
            return self.with_input(stdin, stdout, shim)

    def with_input(self, stdin, stdout=subprocess.PIPE, shim=None):
        extra = {"LD_PRELOAD": shim} if shim else {}
        done = subprocess.run([self.program], stdin=stdin, stdout=stdout, stderr=subprocess.PIPE,
                              timeout=LONGEST_RUN, check=True, env={**os.environ, **extra})
        return done.stdout, done.stderr

    def in_pieces(self, content, sizes):
        """The same, by a pipe into which the bytes come in pieces."""
        with subprocess.Popen([self.program], stdin=subprocess.PIPE, stdout=subprocess.PIPE, stderr=subprocess.PIPE) as program:
            at = 0
            for size in sizes:
                program.stdin.write(content[at:at + size])
                program.stdin.flush()
                at += size
            return program.communicate(content[at:], timeout=LONGEST_RUN)


def stored_cases(runs):
    rng = random.Random(1)
    for number, case in enumerate(vectors("record_counts.jsonl")):
        runs.expect("stored case %d" % number, runs.ask(case["input"]), (case["printed"], b""))
        sizes = [rng.randrange(1, 9) for _ in range(4)]
        runs.expect("stored case %d, in pieces" % number, runs.in_pieces(case["input"], sizes), (case["printed"], b""))


def judged_sheets(runs):
    rng = random.Random(2)
    sheets = [(case["name"].decode(), case["sheet"]) for case in vectors("sheets.jsonl")]
    sheets += [(path.name, path.read_bytes()) for path in sorted((ROOT / "examples").glob("*.sheet"))]
    for name, sheet in rng.sample(sheets, min(120, len(sheets))):
        given = rng.choice((b"0", b"1", b"7", b"20", b"64", b"65", b"x", b"-1", b" 3 ", b"05"))
        content = given + b"\n" + sheet
        runs.expect("%s with %s" % (name, given.decode()), runs.ask(content), (record_counts(content), b""))


def long_lines(runs):
    """A line of any length takes the same memory; a sheet of any length is refused by its first bytes."""
    blank = b" " * 3000000
    for name, line, wanted in (
            ("a number behind blanks", blank + b"2", FIGURES),
            ("a number before blanks", b"2" + blank, FIGURES),
            ("digits beyond every buffer", b"9" * 3000000, b"refused 19\n"),
            ("two numbers far apart", b"2" + blank + b"2", b"refused 3\n"),
            ("a barred byte far behind", b"2" + blank + b"\x00", b"refused 3\n")):
        runs.expect(name, runs.ask(line + b"\n" + UNTIL), (wanted, b""))
    runs.expect("a sheet beyond the bound", runs.ask(b"2\n" + b"x" * 3000000), (b"refused 1\n", b""))
    with subprocess.Popen(["cat", runs.file("line", b"2\n"), "/dev/zero"], stdout=subprocess.PIPE) as endless:
        runs.expect("an endless sheet", runs.with_input(endless.stdout), (b"refused 1\n", b""))
        endless.kill()


def reads_that_fail(runs):
    runs.expect("an empty input", runs.ask(b""), (b"refused 3\n", b""))
    folder = os.open(runs.folder, os.O_RDONLY)
    runs.expect("a folder for an input", runs.with_input(folder), (b"refused 3\n", NOT_READ))
    os.close(folder)
    content = b"  2\n" + UNTIL
    shim = runs.failing_read("  2", CHUNK)
    runs.expect("a read that fails at the end", runs.ask(content, shim=shim), (b"refused 3\n", NOT_READ))


def writes_that_fail(runs):
    with open("/dev/full", "wb") as device:
        for name, content in (("figures", b"2\n" + UNTIL), ("many figures", b"64\nx\n0\n0\n"), ("a refusal", b"65\n" + UNTIL)):
            runs.expect("a full device, " + name, runs.ask(content, device)[1], NOT_WRITTEN)


run_parts("record_counts", CountsRuns, (stored_cases, judged_sheets, long_lines, reads_that_fail, writes_that_fail))
