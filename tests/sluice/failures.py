"""Runs the program `sluice` where reading or writing fails.

    python3 tests/sluice/failures.py [--program PROGRAM] [NAME ..]

A read that fails in the middle of a sheet leaves an empty one: `refused 3`, and a
line on standard error. A write that fails stops the printing, with a line on
standard error. PROGRAM is target/bin/sluice, which `tools/build sluice` makes.
"""

import os
import pathlib
import subprocess
import sys

sys.path.insert(0, str(pathlib.Path(__file__).resolve().parents[1]))
from programs import add_parts, add_program, chosen_parts, parser, program_of  # noqa: E402

SHEET = b"level gate\n0 0\n2 1\n( level ge 2 ) -> gate\n"
TABLE = b"state final level gate next\n0 1 0 0 0\n0 1 0 1 0\n0 1 1 0 0\n0 1 1 1 0\n0 1 2 1 0\n"
READ_FAILED = b"sluice: the sheet cannot be read\n"
WRITE_FAILED = b"sluice: the table cannot be written whole\n"


def run(program, stdin, stdout=subprocess.PIPE):
    done = subprocess.run([program], stdin=stdin, stdout=stdout, stderr=subprocess.PIPE, timeout=60)
    return done.stdout, done.stderr


def second_read_fails(program):
    """The pipe has the sheet without its rule; its writer stays open, and a read that would wait fails instead."""
    reader, writer = os.pipe()
    os.set_blocking(reader, False)
    os.write(writer, SHEET[: SHEET.index(b"(")])
    answer = run(program, reader)
    os.close(reader)
    os.close(writer)
    return answer


def device_is_full(program):
    reader, writer = os.pipe()
    os.write(writer, SHEET)
    os.close(writer)
    with open("/dev/full", "wb") as device:
        answer = run(program, reader, device)
    os.close(reader)
    return answer[1]


def sheet_is_whole(program):
    reader, writer = os.pipe()
    os.write(writer, SHEET)
    os.close(writer)
    answer = run(program, reader)
    os.close(reader)
    return answer


EXPECTED = {"a-whole-sheet": (sheet_is_whole, (TABLE, b"")), "a-second-read-that-fails": (second_read_fails, (b"refused 3\n", READ_FAILED)),
            "a-full-device": (device_is_full, WRITE_FAILED)}


def main():
    arguments = parser(__doc__)
    add_program(arguments, "sluice")
    add_parts(arguments, EXPECTED)
    given = arguments.parse_args()
    chosen = chosen_parts(arguments, EXPECTED, given.names)
    for case, answer in chosen:
        got = case(program_of(given, "sluice"))
        if got != answer:
            sys.exit(f"tests/sluice/failures.py: {case.__name__}: expected {answer!r}, got {got!r}")
    print(f"{len(chosen)} cases, those of a read and of a write that fail among them")


if __name__ == "__main__":
    main()
