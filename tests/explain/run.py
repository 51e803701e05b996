"""Tests tools/explain: stored texts, faults and numbers of random sheets, contradictions, the command.

    python3 tests/explain/run.py [--write] [--seed SEED] [--program PROGRAM] [NAME ..]

Each tests/explain/cases/CASE.sheet must be explained as CASE.told says. PROGRAM is target/bin/sluice, which
`tools/build sluice` makes; where it is not there, its numbers are not compared. --write writes the stored texts anew.
"""

import pathlib
import random
import subprocess
import sys
import tempfile

ROOT = pathlib.Path(__file__).resolve().parents[2]
sys.path.insert(0, str(ROOT / "enumerator"))
from commands import add_parts, chosen_parts, parser  # noqa: E402
from damage import damaged_sheets  # noqa: E402
from explain import explained, other_number, sluice_number  # noqa: E402
from explain_check import drawn_contradiction, faults_fault, least_fault, number_fault  # noqa: E402
from generate import (bound_sheets, division_sheets, random_kinds_sheets, random_release_sheets, random_sheets,  # noqa: E402
                      release_sheets)
from smallest import print_difference  # noqa: E402
from spellings import spelling_sheets  # noqa: E402

CASES = ROOT / "tests" / "explain" / "cases"
TOOL = ROOT / "tools" / "explain"
# The rows of the host, for a case that has others than `sluice` lends.
ROWS = {"refused-8": 4096}
RANDOM_SHEETS, NUMBERS, CONTRADICTIONS = 150, 40, 40
LONGEST_RUN = 60


class Failed(Exception):
    """A part of the test failed."""


def told(path):
    refusal, lines = explained(path.read_bytes(), ROWS.get(path.stem))
    return refusal, "\n".join(lines) + "\n"


def stored(given):
    """Every refusal 1 to 10 and an accepted sheet, as stored."""
    seen = set()
    for path in sorted(CASES.glob("*.sheet")):
        refusal, text = told(path)
        seen.add(refusal)
        if text != path.with_suffix(".told").read_text():
            raise Failed("%s is explained by\n%s" % (path.name, text))
    if seen != set(range(11)):
        raise Failed("the cases have the refusals %s" % sorted(seen))
    return "%d stored texts" % len(list(CASES.glob("*.sheet")))


def drawn_texts(seed, count):
    return [text for _, text in random_sheets(seed, count) + division_sheets(seed, count // 2)
            + random_kinds_sheets(seed, count // 2) + random_release_sheets(seed, count // 2) + damaged_sheets(seed, 8)]


def none_fails(texts, fault):
    """Stops at the first sheet that has a fault, with the smallest that has one."""
    for text in texts:
        found = fault(text)
        if found:
            print_difference([text], fault, found)
            raise Failed("a sheet is explained wrongly")
    return len(texts)


def faults(given):
    """Faults are found exactly where a refusal holds, each at a place of the sheet."""
    texts = drawn_texts(given.seed, RANDOM_SHEETS) + [text for _, _, text in spelling_sheets() + bound_sheets() + release_sheets()]
    return "%d sheets with faults exactly where a refusal holds" % none_fails(texts, faults_fault)


def numbers(given):
    """The number explained is that of the compile."""
    texts = [text for _, text in random_sheets(given.seed, NUMBERS) + random_kinds_sheets(given.seed, NUMBERS)
             + damaged_sheets(given.seed, 2)]
    return "%d random sheets explained by their number" % none_fails(texts, number_fault)


def contradictions(given):
    """Smallest sets of rules that contradict each other."""
    rng, texts = random.Random("explain %d" % given.seed), []
    while len(texts) < CONTRADICTIONS:
        text = drawn_contradiction(rng)
        texts += [] if text is None else [text]

    def fault(text):
        return sluice_number(text) == 9 and least_fault(text)

    return "%d smallest sets of contradicting rules" % none_fails(texts, fault)


def proved(given):
    """The number of the proved program, where it is built."""
    if not given.program.exists():
        return "%s is not there: no numbers compared with it" % given.program
    texts = drawn_texts(given.seed + 1, 60)
    return "%d numbers of the proved program" % none_fails(
        texts, lambda text: [told] if (told := other_number(text, given.program)) else None)


def run(*arguments):
    done = subprocess.run([str(TOOL), *map(str, arguments)], capture_output=True, text=True, timeout=LONGEST_RUN)
    return done.returncode, done.stdout, done.stderr


def command(given):
    """Exit statuses, a program that gives another number, one that is not there, a sheet that cannot be read."""
    with tempfile.TemporaryDirectory() as name:
        folder = pathlib.Path(name)
        other, missing = folder / "other", folder / "missing"
        other.write_text("#!/bin/sh\ncat >/dev/null\necho refused 4\n")
        other.chmod(0o755)
        accepted, refused, unknown = (CASES / (case + ".sheet") for case in ("accepted", "refused-9", "refused-4"))
        for what, (status, printed, said), wanted in (
                ("accepted", run("--program", missing, accepted), (0, "accepted\n", "not compared")),
                ("refused", run("--program", missing, refused), (1, "refused 9: ", "not compared")),
                ("another number", run("--program", other, refused), (2, "DIFFERENCE: the proved program gives `refused 4`", "")),
                ("the same number", run("--program", other, unknown), (1, "refused 4: ", "")),
                ("a missing sheet", run(missing), (2, "", "missing")),
                ("help", run("--help"), (0, "usage: tools/explain", "")),
                ("no sheet", run(), (2, "", "usage: tools/explain"))):
            if status != wanted[0] or not printed.startswith(wanted[1]) or wanted[2] not in said or bool(said) != bool(wanted[2]):
                raise Failed("%s: status %d, %r, %r" % (what, status, printed[:200], said))
    return "7 calls of tools/explain"


PARTS = (stored, faults, numbers, contradictions, proved, command)


def main():
    arguments = parser(__doc__)
    arguments.add_argument("--write", action="store_true", help="write the stored texts anew")
    arguments.add_argument("--seed", type=int, default=1, metavar="SEED", help="of the random sheets")
    arguments.add_argument("--program", type=pathlib.Path, default=ROOT / "target" / "bin" / "sluice", metavar="PROGRAM")
    add_parts(arguments, PARTS)
    given = arguments.parse_args()
    if given.write:
        for path in CASES.glob("*.sheet"):
            path.with_suffix(".told").write_text(told(path)[1])
    try:
        for part in chosen_parts(arguments, PARTS, given.names):
            print(part(given), flush=True)
    except Failed as failed:
        sys.exit("tests/explain/run.py: %s" % failed)


if __name__ == "__main__":
    main()
