"""Tests what the documents say by doing it.

    python3 tests/docs/run.py [NAME ..]

docs/sheets.md, Patterns: the sheets shown, the answers to rules, the reserved words, the most letters for each D+B, what
each sheet costs, and that two ways to write a sheet say the same. docs/exports.md and docs/statistics.md: what is printed
for the sheets named, and the program in C over the header, with the step of bench/. CC may name another C compiler.
"""

import os
import pathlib
import re
import subprocess
import sys
import tempfile

ROOT = pathlib.Path(__file__).resolve().parents[2]
sys.path.insert(0, str(ROOT / "enumerator"))
from commands import add_parts, chosen_parts, parser  # noqa: E402
from compiler import compile_sheet  # noqa: E402
from explain import sluice_number  # noqa: E402
from export import export  # noqa: E402
from grammar import RESERVED  # noqa: E402
from intervals import deepest_back, deepest_reach  # noqa: E402
from limits import NO_ENTRY  # noqa: E402
from reading import letter_count, read  # noqa: E402
from situations import letters  # noqa: E402
from sluice import sluice  # noqa: E402
from statistics import statistics  # noqa: E402

SHEETS = (ROOT / "docs" / "sheets.md").read_text()
PATTERNS = SHEETS[SHEETS.index("\n## Patterns\n"):]
RECORD_LENGTH = 7


class Failed(Exception):
    """A document says what is not so."""


def expect(what, got, wanted):
    if got != wanted:
        raise Failed("%s: the document says %r, and it is %r" % (what, wanted, got))


def example(name):
    return (ROOT / "examples" / (name + ".sheet")).read_bytes()


def section(title):
    """The text of a section of the chapter, to the next title."""
    return PATTERNS.split("### " + title + "\n", 1)[1].split("\n###", 1)[0]


def table_rows(text):
    """The cells of each line of the tables of a text, without the heading."""
    rows = [[cell.strip() for cell in line.strip("|").split("|")] for line in text.splitlines() if line.startswith("|")]
    return [row for row in rows[1:] if not set("".join(row)) <= {"-"}]


def shown_sheets():
    """Each block of the chapter is the example named last before it."""
    paragraphs = PATTERNS.split("\n\n")
    count, name = 0, None
    for paragraph in paragraphs:
        if paragraph.startswith("    "):
            sheet = "".join(line[4:] + "\n" for line in paragraph.rstrip("\n").splitlines())
            expect("the sheet " + name, sheet.encode(), example(name))
            count += 1
        elif paragraph.startswith("`examples/") or "is `examples/" in paragraph:
            name = re.findall(r"(?:^|is )`examples/([a-z-]+)\.sheet`", paragraph)[0]
    return "%d sheets shown are those of examples/" % count


def answers():
    """The answers to rules about tokens."""
    rows = table_rows(section("Tokens: spaces, brackets, negative integers, reserved words"))
    for rule, answer in rows:
        text = "x y\n-5 -5\n5 5\n%s\n" % rule.strip("`")
        number = sluice_number(text.encode())
        expect(rule, "refused %d" % number if number else "accepted", answer)
    return "%d rules answered as the document says" % len(rows)


def reserved_words():
    listed = re.search(r"are these words: `([a-z ]+)`", PATTERNS).group(1).split()
    expect("the reserved words", sorted(RESERVED), sorted(listed))
    for word in listed:
        expect("a stream " + word, sluice_number(("%s\n0\n1\n" % word).encode()), 4)
    return "%d reserved words" % len(listed)


def looking(window, back):
    """A rule that forbids nothing and looks so far back, or ahead."""
    side = "x"
    for _ in range(window):
        side = "( 0 fby %s )" % side if back else "( next %s )" % side
    return "%s * 0 == 0" % side


def most_letters():
    head, row = re.findall(r"^\| (?:D\+B|most letters) \|(.*)\|$", section("Letters and situations"), re.M)
    for window, most in zip(head.split("|"), row.split("|")):
        for back in (False, True):
            for count, answers_to in ((int(most), (0,)), (int(most) + 1, (7, 10))):
                number = sluice_number(("x\n0\n%d\n%s\n" % (count - 1, looking(int(window), back))).encode())
                expect("D+B %s with %d letters" % (window.strip(), count), number in answers_to, True)
    return "the most letters for each D+B"


def figures(name):
    """Letters, D, B, situations and states of an example."""
    _, sheet = read(example(name))
    compiled = compile_sheet(example(name), 256)
    return [letter_count(sheet), deepest_reach(sheet.constraints), deepest_back(sheet.constraints),
            compiled.situations, compiled.states]


def costs():
    rows = table_rows(section("What they cost"))
    for name, *numbers in rows:
        expect("what %s costs" % name, figures(name.strip("`")), list(map(int, numbers)))
    return "the figures of %d sheets" % len(rows)


def records(text, names, length):
    """The records of the table, cut to the streams of these names, up to a length."""
    _, sheet = read(text)
    entries, values = compile_sheet(text, 256).entries, letters(sheet)
    places = [sheet.names.index(name) for name in names]
    found, level = set(), {((), 0)}
    for _ in range(length):
        level = {(record + (tuple(values[letter][place] for place in places),), entry)
                 for record, state in level for letter, entry in enumerate(entries[state]) if entry != NO_ENTRY}
        found |= {record for record, _ in level}
    return found


def same_meaning():
    """`held` allows the same calls and gates as `timer`; ten times fit where the document says so; the interlock with `fby`
    has the same table, and so many situations."""
    names = ["call", "gate"]
    expect("held and timer", records(example("held"), names, RECORD_LENGTH), records(example("timer"), names, RECORD_LENGTH))
    ten = example("held").replace(b"1 1 3", b"1 1 10").replace(b"lt 3", b"lt 10").replace(b"eq 3", b"eq 10")
    told = int(re.search(r"the second has (\d+) situations", PATTERNS).group(1))
    expect("ten times", compile_sheet(ten, 256).situations, told)
    back = example("interlock")
    for one, other in ((b"upper", b"lower"), (b"lower", b"upper")):
        back = back.replace(b"( %s and ( next %s ) )" % (one, other), b"( ( 0 fby %s ) and %s )" % (one, other))
    expect("the interlock with fby", sluice(back), sluice(example("interlock")))
    nine, seven = map(int, re.search(r"has (\d+) situations; with `fby` in its last two rules it has (\d+)", PATTERNS).groups())
    expect("its situations", [compile_sheet(text, 256).situations for text in (example("interlock"), back)], [nine, seven])
    return "two ways to write a sheet, with the same meaning"


def block(page, name):
    """The one block of a page with this name."""
    found, = re.findall(r"^```%s\n(.*?)^```$" % re.escape(name), page, re.S | re.M)
    return found


def exports():
    """The header of the page is that of its sheet, and the program over it prints what the page says."""
    page = (ROOT / "docs" / "exports.md").read_text()
    expect("the header", export(example("high-water")).decode(), block(page, "c high_water.h"))
    with tempfile.TemporaryDirectory() as name:
        folder = pathlib.Path(name)
        (folder / "high_water.h").write_text(block(page, "c high_water.h"))
        (folder / "exported.c").write_text(block(page, "c exported"))
        strict = [os.environ.get("CC", "cc"), "-std=c99", "-O2", "-Wall", "-Wextra", "-Wpedantic", "-Werror", "-Iinclude", "-I", name]
        subprocess.run(strict + ["-Dadvance=advance_in_c", "-c", str(folder / "exported.c"), "-o", str(folder / "exported.o")], cwd=ROOT, check=True)
        subprocess.run(strict + [str(folder / "exported.o"), "bench/step/step_in_c.c", "-o", str(folder / "exported")], cwd=ROOT, check=True)
        done = subprocess.run([str(folder / "exported")], stdout=subprocess.PIPE, text=True, check=True)
        expect("what the program prints", done.stdout, block(page, "text exported"))
    return "the header of docs/exports.md, and the program over it"


def sizes():
    """The figures of docs/statistics.md."""
    page = (ROOT / "docs" / "statistics.md").read_text()
    for name in ("timer", "refused-no-solution"):
        shown = "".join("    %s\n" % line for line in statistics(example(name)).decode().splitlines())
        expect("the sizes of " + name, shown in page, True)
    return "the figures of docs/statistics.md"


PARTS = (shown_sheets, answers, reserved_words, most_letters, costs, same_meaning, exports, sizes)


def main():
    arguments = parser(__doc__)
    add_parts(arguments, PARTS)
    given = arguments.parse_args()
    try:
        for part in chosen_parts(arguments, PARTS, given.names):
            print(part(), flush=True)
    except Failed as failed:
        sys.exit("tests/docs/run.py: %s" % failed)


if __name__ == "__main__":
    main()
