"""Runs the program `migrate` on files and compares it with the enumerator.

    python3 tests/migrate/run.py [--program PROGRAM] [NAME ..]

The stored pairs of sheets and that of the examples; each stored sheet to itself, to its streams without rules, and
back; records of drawn pairs, played by `replay` along both sheets; files that cannot be
read, a read and a write that fail. PROGRAM is target/bin/migrate; it and target/bin/replay
are made by `tools/build migrate replay`. CC may name another C compiler.
"""

import pathlib
import random
import sys

ROOT = pathlib.Path(__file__).resolve().parents[2]
sys.path[:0] = [str(ROOT / "enumerator"), str(ROOT / "tests")]
from carry_cases import drawn_sheets  # noqa: E402
from migrate import migrate  # noqa: E402
from programs import Runs, built, full_device, later_read_of_a_sheet_fails, run_parts, unreadable_pairs, vectors  # noqa: E402
from shortest_check import Printed  # noqa: E402
from sluice import sluice  # noqa: E402

UNTIL = b"x y\n0 0\n1 1\nx until y"
# The same streams, with a space before them, so that a read can be told from that of the other sheet.
FREE = b" x y\n0 0\n1 1"
NOT_READ = b"migrate: the old sheet cannot be read\n", b"migrate: the new sheet cannot be read\n"
NOT_WRITTEN = b"migrate: the list cannot be written whole\n"
PLAYED_PAIRS, LINES = 60, 40


class MigrateRuns(Runs):
    def compare(self, name, old, new):
        """The program on files against the enumerator on bytes."""
        wanted = migrate(old, new)
        self.expect(name, self.run([self.file("old", old), self.file("new", new)]), (wanted, b""))
        return wanted


def stored_cases(runs):
    for number, case in enumerate(vectors("migrate.jsonl")):
        printed = runs.compare("stored case %d" % number, case["old"], case["new"])
        runs.expect("stored case %d, as stored" % number, printed, case["printed"])
    examples = ROOT / "examples"
    printed = runs.run([examples / "timer.sheet", examples / "timer-two.sheet"])
    runs.expect("the examples", printed, ((examples / "timer.migrated").read_bytes(), b""))


def without_rules(case):
    """A sheet with the streams of a stored one and no rule."""
    lines = [[name for name in case["names"]], case["lows"], case["highs"], case["stream_kinds"]]
    return "\n".join(" ".join(map(str, line)) for line in lines).encode()


def stored_sheets(runs):
    """A sheet goes on in itself from each state in the same one, and without its rules from each in state 0."""
    for case in vectors("sheets.jsonl"):
        name, sheet, printed = case["name"].decode(), case["sheet"], case["sluice"]
        path = runs.file("sheet", sheet)
        refused = printed.startswith(b"refused ")
        states = 0 if refused else 1 + max(Printed(printed).finals)
        wanted = printed if refused else "".join(["old new\n"] + ["%d %d\n" % (state, state) for state in range(states)]).encode()
        runs.expect(name + " to itself", runs.run([path, path]), (wanted, b""))
        if not refused:
            free = runs.file("free", without_rules(case))
            wanted = "".join(["old new\n"] + ["%d 0\n" % state for state in range(states)]).encode()
            runs.expect(name + " without its rules", runs.run([path, free]), (wanted, b""))
            runs.compare(name + " in place of none", without_rules(case), sheet)


def replayed(runs, sheet, record):
    """The states that `replay` prints for a record."""
    printed, told = runs.run([runs.file("sheet", sheet), record], program=built("replay"))
    runs.expect("nothing is told of a record", told, b"")
    return [line.split()[1] for line in printed.splitlines()[1:]]


def played(runs):
    """After each line of a record that the old sheet allows, the new sheet stands in the state that is printed for the old one's."""
    rng, done = random.Random("played"), 0
    while done < PLAYED_PAIRS:
        old, new = drawn_sheets(rng)
        printed = runs.compare("a drawn pair", old, new)
        if printed.startswith(b"refused "):
            continue
        pairs = dict(line.split() for line in printed.splitlines()[1:])
        table, state, lines = Printed(sluice(old)), 0, []
        for _ in range(LINES):
            values, state = rng.choice(table.ways[state])
            lines.append(" ".join(values))
        record = runs.file("record", "\n".join([" ".join(table.names), *lines]).encode())
        runs.expect("a record of both", [pairs[state] for state in replayed(runs, old, record)], replayed(runs, new, record))
        done += 1


def reads_that_fail(runs):
    unreadable_pairs(runs, UNTIL, NOT_READ)
    old, new = runs.file("old", UNTIL), runs.file("new", FREE)
    runs.expect("further arguments", runs.run([old, new, "1", "x"]), (b"old new\n0 0\n1 0\n", b""))
    # behind the read that fails all others fail too
    later_read_of_a_sheet_fails(runs, UNTIL, NOT_READ[0] + NOT_READ[1], behind=[new])
    later_read_of_a_sheet_fails(runs, FREE, NOT_READ[1], before=[old])


def writes_that_fail(runs):
    cases = (("a list", UNTIL, FREE), ("a refusal", FREE, UNTIL), ("a refused sheet", b"", UNTIL))
    full_device(runs, [(name, [runs.file(name, old), runs.file(name + " too", new)]) for name, old, new in cases], NOT_WRITTEN)


run_parts("migrate", MigrateRuns, (stored_cases, stored_sheets, played, reads_that_fail, writes_that_fail))
