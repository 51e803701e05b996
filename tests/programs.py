"""What the tests of programs that take file names share: runs on files of a
folder of their own, a read that fails, and the stored vectors."""

import json
import os
import pathlib
import random
import subprocess
import sys
import tempfile
import threading
from collections import Counter

ROOT = pathlib.Path(__file__).resolve().parents[1]
sys.path.insert(0, str(ROOT / "enumerator"))
from commands import add_parts, chosen_parts, parser  # noqa: E402
from smallest import print_difference  # noqa: E402

LONGEST_RUN = 60
# The bytes that a program which reads one sheet has for it.
SHEET_ROOM = 16385

# The read after one that gave bytes of the text that begins so fails; the arguments are those bytes and their number.
FAILING_READ = """
#define _GNU_SOURCE
#include <dlfcn.h>
#include <errno.h>
#include <string.h>
#include <unistd.h>
ssize_t read(int file, void *bytes, size_t count) {
    static int failing;
    ssize_t (*next)(int, void *, size_t) = (ssize_t (*)(int, void *, size_t))dlsym(RTLD_NEXT, "read");
    if (failing) { errno = EIO; return -1; }
    ssize_t got = next(file, bytes, count);
    failing = got > %d && count == %d && !memcmp(bytes, "%s", %d);
    return got;
}
"""


def built(name):
    """The program of this name, which `tools/build` makes."""
    program = ROOT / "target" / "bin" / name
    if not program.exists():
        sys.exit("%s is missing: run `tools/build %s` first" % (program, name))
    return str(program)


def vectors(name):
    """The stored cases of a file of `vectors/`, each with its texts as bytes."""
    with open(ROOT / "vectors" / name, encoding="latin-1") as lines:
        cases = [json.loads(line) for line in lines]
    return [{key: value.encode("latin-1") if type(value) is str else value for key, value in case.items()} for case in cases]


class Runs:
    """A program on files of a folder of its own."""

    def __init__(self, name, program, folder):
        self.test, self.program, self.folder, self.count = "tests/%s/run.py" % name, program, pathlib.Path(folder), 0

    def file(self, name, content):
        path = self.folder / name
        path.write_bytes(content)
        return str(path)

    def run(self, arguments, stdout=subprocess.PIPE, shim=None, program=None):
        extra = {"LD_PRELOAD": shim} if shim else {}
        done = subprocess.run([program or self.program, *arguments], stdin=subprocess.DEVNULL, stdout=stdout,
                              stderr=subprocess.PIPE, timeout=LONGEST_RUN, check=True, env={**os.environ, **extra})
        return done.stdout, done.stderr

    def expect(self, name, got, wanted):
        if got != wanted:
            sys.exit("%s: %s: expected %r, got %r" % (self.test, name, wanted, got))
        self.count += 1

    def failing_read(self, beginning, size):
        """A library to load before the program: a read of so many bytes that gives a text with this beginning is the last."""
        text = FAILING_READ % (len(beginning), size, beginning, len(beginning))
        source, shim = self.file("shim.c", text.encode()), str(self.folder / "shim.so")
        subprocess.run([os.environ.get("CC", "cc"), "-shared", "-fPIC", source, "-o", shim, "-ldl"], check=True)
        return shim


def unreadable_sheets(runs, not_read):
    """Sheets that cannot be read count as empty, which is told; an endless one is not read to its end."""
    missing, folder = str(runs.folder / "missing"), str(runs.folder)
    for name, arguments, wanted in (
            ("no arguments", [], (b"refused 3\n", not_read)),
            ("a missing sheet", [missing], (b"refused 3\n", not_read)),
            ("a folder for a sheet", [folder], (b"refused 3\n", not_read)),
            ("a path that is too long", ["s" * 5000], (b"refused 3\n", not_read)),
            ("an empty sheet", [runs.file("empty", b"")], (b"refused 3\n", b"")),
            ("an endless sheet", ["/dev/zero"], (b"refused 1\n", b""))):
        runs.expect(name, runs.run(arguments), wanted)


def unreadable_pairs(runs, sheet, not_read):
    """The same for a program that reads two sheets; `not_read` has what is told of the first and of the second."""
    missing, folder, long, good, empty = str(runs.folder / "missing"), str(runs.folder), "s" * 5000, runs.file("good", sheet), runs.file("empty", b"")
    first, second = not_read
    for name, arguments, wanted in (
            ("no arguments", [], (b"refused 3\n", first + second)),
            ("one argument", [good], (b"refused 3\n", second)),
            ("a missing first sheet", [missing, good], (b"refused 3\n", first)),
            ("a missing second sheet", [good, missing], (b"refused 3\n", second)),
            ("two missing sheets", [missing, missing], (b"refused 3\n", first + second)),
            ("a folder for the first sheet", [folder, good], (b"refused 3\n", first)),
            ("a folder for the second sheet", [good, folder], (b"refused 3\n", second)),
            ("a first path that is too long", [long, good], (b"refused 3\n", first)),
            ("a second path that is too long", [good, long], (b"refused 3\n", second)),
            ("an empty first sheet", [empty, missing], (b"refused 3\n", second)),
            ("an empty second sheet", [good, empty], (b"refused 3\n", b"")),
            ("an endless first sheet", ["/dev/zero", good], (b"refused 1\n", b"")),
            ("an endless second sheet", [good, "/dev/zero"], (b"refused 1\n", b""))):
        runs.expect(name, runs.run(arguments), wanted)


def unreadable_records(runs, sheet, record, sheet_unread, record_unread):
    """A sheet or a record that cannot be read counts as empty, which is told, that of the sheet alone where the sheet is refused."""
    missing, folder = str(runs.folder / "missing"), str(runs.folder)
    for name, arguments, wanted in (
            ("no arguments", [], (b"refused 3\n", sheet_unread)),
            ("one argument", [sheet], (b"refused 13\n", record_unread)),
            ("a missing sheet", [missing, record], (b"refused 3\n", sheet_unread)),
            ("a missing record", [sheet, missing], (b"refused 13\n", record_unread)),
            ("a folder for a sheet", [folder, record], (b"refused 3\n", sheet_unread)),
            ("a folder for a record", [sheet, folder], (b"refused 13\n", record_unread)),
            ("a path that is too long", [sheet, "r" * 5000], (b"refused 13\n", record_unread)),
            ("an endless sheet", ["/dev/zero", record], (b"refused 1\n", b""))):
        runs.expect(name, runs.run(arguments), wanted)


def endless_record(runs, sheet, beginning, line):
    """What is printed and told of a record whose writer never ends by itself, in a pipe with a name."""
    pipe = str(runs.folder / "pipe")
    os.mkfifo(pipe)

    def feed():
        with open(pipe, "wb", buffering=0) as writer:
            try:
                writer.write(beginning)
                while True:
                    writer.write(line * 1000)
            except BrokenPipeError:
                pass

    thread = threading.Thread(target=feed, daemon=True)
    thread.start()
    printed = runs.run([sheet, pipe])
    thread.join(LONGEST_RUN)
    return printed


def later_read_of_a_sheet_fails(runs, sheet, not_read, before=(), behind=()):
    """A sheet whose later read fails counts as empty; before and behind it other arguments may stand."""
    shim = runs.failing_read(sheet[:3].decode(), SHEET_ROOM)
    got = runs.run([*before, runs.file("sheet", sheet), *behind], shim=shim)
    runs.expect("a read that fails within a sheet", got, (b"refused 3\n", not_read))


def full_device(runs, cases, not_written):
    """What cannot be written is told; each case has a name and arguments."""
    with open("/dev/full", "wb") as device:
        for name, arguments in cases:
            runs.expect("a full device, " + name, runs.run(arguments, device)[1], not_written)


def add_program(arguments, name):
    """The argument --program, where it is not the program that `tools/build` makes."""
    arguments.add_argument("--program", metavar="PROGRAM", help="the program (target/bin/%s)" % name)


def program_of(given, name):
    return str(pathlib.Path(given.program).resolve()) if given.program else built(name)


def main_doc():
    """The text of the command that runs."""
    return sys.modules["__main__"].__doc__


def run_parts(name, runs, parts):
    """The command of a test: runs the parts that are named, or each, on the program of this name; `runs` is a kind of Runs."""
    arguments = parser(main_doc())
    add_program(arguments, name)
    add_parts(arguments, parts)
    given = arguments.parse_args()
    chosen = chosen_parts(arguments, parts, given.names)
    with tempfile.TemporaryDirectory() as folder:
        done = runs(name, program_of(given, name), folder)
        for part in chosen:
            part(done)
        print("%d comparisons of `%s`, with no difference" % (done.count, name))


def random_arguments(name):
    """The arguments of a comparison on random sheets: how many, the seed, the program."""
    arguments = parser(main_doc())
    arguments.add_argument("count", metavar="COUNT", type=int)
    arguments.add_argument("seed", metavar="SEED", type=int, nargs="?", default=1)
    add_program(arguments, name)
    given = arguments.parse_args()
    return given.count, given.seed, program_of(given, name)


def print_counts(what, seed, counts):
    print("%d %s, seed %d, with no difference:" % (sum(counts.values()), what, seed))
    for kind in sorted(counts):
        print("  %6d %s" % (counts[kind], kind))


def kind_of(printed, answer):
    """What sheets led to, for the summary: a refusal, or the word for an answer."""
    return printed.split(b"\n", 1)[0].decode() if printed.startswith(b"refused ") else answer


def first_difference(cases, fault):
    """The first of the cases, which are texts, for which the fault function gives something is told of with the smallest texts for which it does; whether there is one."""
    for number, texts in enumerate(cases, 1):
        found = fault(*texts)
        if found:
            print_difference(texts, fault, found)
            return True
        if number % 100 == 0:
            print("%d compared" % number, flush=True)
    return False


def compare_sheets(runs, sheets, wanted):
    """The program on fresh sheets, which are texts, against what the enumerator prints; stops at a difference with the smallest sheet that still shows it."""
    def fault(text):
        printed, got = wanted(text), runs.run([runs.file("sheet", text)])
        runs.count += 1
        return None if got == (printed, b"") else ("printed", *got, "and not", printed)

    if first_difference(([text] for text in sheets), fault):
        sys.exit("%s: a difference" % runs.test)


def compare_pairs(name, drawn, wanted, answer):
    """The command that compares a program on fresh random pairs of sheets with the enumerator; gives the exit status. `drawn` gives a pair, `wanted` what is printed for it, and
    `answer` names what is printed where nothing is refused."""
    count, seed, program = random_arguments(name)
    rng, counts = random.Random("%s %d" % (name, seed)), Counter()
    with tempfile.TemporaryDirectory() as folder:
        runs = Runs(name, program, folder)

        def fault(*texts):
            printed = wanted(*texts)
            got = runs.run([runs.file("sheet %d" % place, text) for place, text in enumerate(texts)])
            counts[kind_of(printed, answer)] += 1
            return None if got == (printed, b"") else ("printed", *got, "and not", printed)

        if first_difference((drawn(rng) for _ in range(count)), fault):
            return 1
    print_counts("pairs of sheets compared", seed, counts)
    return 0
