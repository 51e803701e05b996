"""Writes records of random lines and runs two programs on them in turns.

    python3 bench/replay/measure.py PROGRAM PROGRAM_IN_C FOLDER COUNT

PROGRAM takes a sheet and a record. Prints the least processor time of each over
several runs, their ratio, and the most memory that each held. What they print
is compared first.
"""

import itertools
import os
import pathlib
import random
import subprocess
import sys
import time

sys.path.insert(0, str(pathlib.Path(__file__).resolve().parents[2] / "enumerator"))
from commands import parser  # noqa: E402

RUNS = 7
BLOCK = 100000
# The sheet's text, and the values of each stream.
RECORDS = {
    "two streams": (b"x y\n0 0\n1 1\nx until y", (range(2), range(2))),
    "four streams": (b"a b c d\n-3 1000 -200000 0\n4 1007 -199997 3\n1 until ( a lt 0 )",
                     (range(-3, 5), range(1000, 1008), range(-200000, -199996), range(4))),
}


def write_record(path, sheet, values, count):
    rng = random.Random(1)
    letters = [b" ".join(b"%d" % value for value in letter) + b"\n" for letter in itertools.product(*values)]
    with open(path, "wb") as record:
        # the last letter first: no line behind it is refused
        record.write(sheet.split(b"\n")[0] + b"\n" + letters[-1])
        for left in range(count - 1, 0, -BLOCK):
            record.write(b"".join(rng.choices(letters, k=min(left, BLOCK))))


def run(program, arguments, out):
    """Processor time in seconds."""
    child = subprocess.Popen([program, *arguments], stdout=out)
    _, child.returncode, used = os.wait4(child.pid, 0)
    if child.returncode:
        sys.exit("%s ended with status %d" % (program, child.returncode))
    return used.ru_utime + used.ru_stime


def most_held(child):
    """The most memory that a running process has held so far, in KiB, or 0."""
    with open("/proc/%d/status" % child.pid, encoding="ascii") as status:
        return max((int(line.split()[1]) for line in status if line.startswith("VmHWM")), default=0)


def printed(program, arguments, name):
    """Keeps what is printed; the most memory that was held, as far as it was looked at."""
    most = 0
    with open(name, "wb") as out:
        child = subprocess.Popen([program, *arguments], stdout=out)
        while child.poll() is None:
            most = max(most, most_held(child))
            time.sleep(0.01)
    return most


def compared(programs, arguments, folder):
    names = [os.path.join(folder, "printed%d" % number) for number in range(len(programs))]
    rooms = [printed(program, arguments, name) for program, name in zip(programs, names)]
    if subprocess.run(["cmp", *names]).returncode:
        sys.exit("the programs print different bytes")
    for name in names:
        os.remove(name)
    return rooms


def main(ours, in_c, folder, count):
    programs = (ours, in_c)
    called = os.path.basename(ours)
    print("%-14s %12s %10s %8s %14s %10s" % ("%d lines" % count, called + " s", "c s", "ratio", called + " KiB", "c KiB"))
    for name, (sheet, values) in RECORDS.items():
        arguments = [os.path.join(folder, part) for part in ("sheet", "record")]
        with open(arguments[0], "wb") as out:
            out.write(sheet)
        write_record(arguments[1], sheet, values, count)
        rooms = compared(programs, arguments, folder)
        with open(os.devnull, "wb") as out:
            turns = [[run(program, arguments, out) for program in programs] for _ in range(RUNS)]
        times = [min(turn[which] for turn in turns) for which in (0, 1)]
        print("%-14s %12.3f %10.3f %8.2f %14d %10d" % (name, *times, times[0] / times[1], *rooms))
        os.remove(arguments[1])


def given_arguments():
    arguments = parser(__doc__)
    for name in ("program", "program_in_c", "folder"):
        arguments.add_argument(name, metavar=name.upper())
    arguments.add_argument("count", metavar="COUNT", type=int, help="lines of a record")
    return vars(arguments.parse_args()).values()


if __name__ == "__main__":
    main(*given_arguments())
