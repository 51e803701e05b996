"""Runs the program `strategy` on files and judges what it prints by the enumerator.

    python3 tests/strategy/run.py [--program PROGRAM] [NAME ..]

The stored cases, whose answer is settled; the sheets of the stored games, all other
stored sheets and the examples, whose play tables are judged, since which letters they
hold is free; plays along what is printed, by drawn choices of the river, played as
records by `replay`; files that cannot be read, a read and a write that fail. PROGRAM is
target/bin/strategy; it and target/bin/replay are made by `tools/build strategy replay`. CC
may name another C compiler.
"""

import pathlib
import random
import sys

ROOT = pathlib.Path(__file__).resolve().parents[2]
sys.path[:0] = [str(ROOT / "enumerator"), str(ROOT / "tests")]
from programs import Runs, built, full_device, later_read_of_a_sheet_fails, run_parts, unreadable_sheets, vectors  # noqa: E402
from sluice import sluice  # noqa: E402
from strategy_check import PrintedGame, printed_fault  # noqa: E402

UNTIL = b"x y\n0 0\n1 1\nread set\n1 until ( x eq y )"
PREVENTED = b"x y\n0 0\n1 1\nread set\n1 until ( x and y )"
NOT_READ = b"strategy: the sheet cannot be read\n"
NOT_WRITTEN = b"strategy: the play table cannot be written whole\n"
PLAYS = 3


class StrategyRuns(Runs):
    def judge(self, name, sheet):
        """What the program prints for a sheet is a play table, or the refusal that is due."""
        printed, told = self.run([self.file("sheet", sheet)])
        self.expect(name, (printed_fault(sheet, printed), told), (None, b""))
        return printed


def stored_cases(runs):
    for number, case in enumerate(vectors("strategy.jsonl")):
        printed = runs.judge("stored case %d" % number, case["sheet"])
        runs.expect("stored case %d, as stored" % number, printed, case["printed"])


def played(runs, name, sheet, printed, rng):
    """Plays along the play table from each state that keeps a row: `replay` follows them, and each meets a final state within as many letters as there are states."""
    game = PrintedGame(sheet, sluice(sheet))
    heading, *lines = printed.decode().splitlines()
    held = {}
    for line in lines:
        state, _, *values, following = line.split()
        held.setdefault(int(state), []).append((" ".join(values), int(following)))
    path = runs.file("sheet", sheet)
    for state in rng.sample(sorted(held), min(PLAYS, len(held))):
        letters, states = [], [state]
        for _ in range(2 * len(game.table.finals) + 3):
            values, following = rng.choice(held[states[-1]])
            letters.append(values)
            states.append(following)
        record = runs.file("record", "\n".join([" ".join(heading.split()[2:-1]), *letters]).encode())
        wanted = "".join(["line state\n"] + ["%d %d\n" % line for line in enumerate(states[1:], 1)]).encode()
        runs.expect(name + ", played", runs.run([path, record, b"%d" % state], program=built("replay")), (wanted, b""))
        met = [game.table.finals[reached] for reached in states[:len(game.table.finals) + 1]]
        runs.expect(name + ", a final state is met", any(met), True)


def judged_sheets(runs):
    rng = random.Random(1)
    sheets = [(case["name"].decode(), case["sheet"]) for name in ("game.jsonl", "sheets.jsonl") for case in vectors(name)]
    sheets += [(path.name, path.read_bytes()) for path in sorted((ROOT / "examples").glob("*.sheet"))]
    for name, sheet in sheets:
        printed = runs.judge(name, sheet)
        if not printed.startswith(b"refused "):
            played(runs, name, sheet, printed, rng)


def reads_that_fail(runs):
    unreadable_sheets(runs, NOT_READ)
    answers = {b"state final x y next\n0 0 0 0 1\n0 0 1 1 1\n1 1 0 %d 1\n1 1 1 %d 1\n" % (low, high) for low in (0, 1) for high in (0, 1)}
    printed, told = runs.run([runs.file("sheet", UNTIL), "1", "x"])
    runs.expect("further arguments", (printed in answers, told), (True, b""))
    later_read_of_a_sheet_fails(runs, UNTIL, NOT_READ)


def writes_that_fail(runs):
    long = next(case["sheet"] for case in vectors("strategy.jsonl") if len(case["printed"]) > 4096)
    cases = (("a play table", UNTIL), ("a long one", long), ("a refusal", PREVENTED))
    full_device(runs, [(name, [runs.file(name, sheet)]) for name, sheet in cases], NOT_WRITTEN)


run_parts("strategy", StrategyRuns, (stored_cases, judged_sheets, reads_that_fail, writes_that_fail))
