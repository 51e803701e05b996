"""Compiles and runs the programs of docs/c-host.md as they stand there.

    python3 tests/docs/c_host.py [--plain] [NAME ..]

The blocks ```c NAME of one name, in their order, are a program, which must print the block ```text NAME. A block whose name
is that of a file stands in the file, word for word. The archives are those that tests/c/run makes; with --plain the plain C
of bench/ stands in their place, which has no normal form. CC may name another C compiler.
"""

import os
import pathlib
import re
import subprocess
import sys
import tempfile

ROOT = pathlib.Path(__file__).resolve().parents[2]
sys.path[:0] = [str(ROOT / "enumerator"), str(ROOT / "bench")]
from commands import add_parts, chosen_parts, parser  # noqa: E402

PAGE = (ROOT / "docs" / "c-host.md").read_text()
ARCHIVES = ["compile_c", "game_c", "course_c", "carry_c", "step"]
PLAIN_NAMES = {"compile_c": "plain_compile", "strategy_c": "plain_strategy", "course_c": "plain_course", "carry_c": "plain_carry",
               "step": "step_in_c", "advance": "advance_in_c"}
PLAIN_SOURCES = ["bench/%s.c" % name for name in ("carry/plain", "given/plain", "course/plain", "game/plain", "compile/plain", "compile/read",
                                                  "minimise/plain", "step/step_in_c")]
STRICT = ["-std=c11", "-O2", "-Wall", "-Wextra", "-Wpedantic", "-Werror", "-Iinclude"]
NORMAL = "examples/print_normal.c"
# How a header states a number: an enumerator or a macro.
STATED = r"(?:\{ %s = |#define %s UINT32_C\()(\d+)"
LONGEST_RUN = 60


class Failed(Exception):
    """The page says what is not so."""


def blocks(language, name):
    return re.findall(r"^```%s %s\n(.*?)^```$" % (language, re.escape(name)), PAGE, re.S | re.M)


def program_names():
    return [name for name in dict.fromkeys(re.findall(r"^```c (\S+)$", PAGE, re.M)) if "/" not in name]


def compiler(*arguments):
    subprocess.run([os.environ.get("CC", "cc"), *map(str, arguments)], cwd=ROOT, check=True)


def archive(name):
    path = ROOT / "target" / "staticlib" / ("lib%s.a" % name)
    if not path.exists():
        raise Failed("%s is missing: run tests/c/run first" % path)
    return path


def built(source, folder, is_plain):
    """The program of a source, over the archives or over plain C."""
    program = folder / "program"
    if is_plain:
        names = ["-D%s=%s" % item for item in PLAIN_NAMES.items()]
        compiler(*STRICT, *names, "-c", source, "-o", folder / "program.o")
        compiler("-O2", "-Iinclude", folder / "program.o", *PLAIN_SOURCES, "-o", program)
    else:
        compiler(*STRICT, source, *map(archive, ARCHIVES), "-o", program)
    return program


def expect(what, got, wanted):
    if got != wanted:
        raise Failed("%s: the page says\n%s\nand it is\n%s" % (what, wanted, got))


def printed(program, text=""):
    done = subprocess.run([str(program)], input=text, stdout=subprocess.PIPE, text=True, timeout=LONGEST_RUN, check=True)
    return done.stdout


def programs(given):
    """The whole programs of the page."""
    for name in program_names():
        with tempfile.TemporaryDirectory() as folder:
            source = pathlib.Path(folder) / (name + ".c")
            source.write_text("\n".join(blocks("c", name)))
            expect("what %s prints" % name, printed(built(source, pathlib.Path(folder), given.plain)), "".join(blocks("text", name)))
    return "%d programs print what the page says" % len(program_names())


def quotations(given):
    """Blocks that are parts of a file."""
    names = [name for name in dict.fromkeys(re.findall(r"^```c (\S+)$", PAGE, re.M)) if "/" in name]
    for name in names:
        for block in blocks("c", name):
            if block not in (ROOT / name).read_text():
                raise Failed("%s has no such part:\n%s" % (name, block))
    unnamed = re.findall(r"^```c$", PAGE, re.M)
    expect("blocks in C without a name", len(unnamed), 0)
    return "the parts of %s are those of the file" % ", ".join(names)


def normal_form(given):
    """What the page says that examples/print_normal.c prints."""
    if given.plain:
        return "there is no plain C of the normal form: left out"
    sheet = re.search(r"For the sheet `([^`]*)` it prints\n\n```text " + re.escape(NORMAL), PAGE).group(1)
    with tempfile.TemporaryDirectory() as folder:
        program = pathlib.Path(folder) / "print_normal"
        compiler(*STRICT, NORMAL, archive("normal_c"), "-o", program)
        expect("what %s prints" % NORMAL, printed(program, sheet.replace("|", "\n") + "\n"), "".join(blocks("text", NORMAL)))
    return "%s prints what the page says" % NORMAL


def stack_figures(given):
    """The figures of stack are those of the headers."""
    headers = "".join(path.read_text() for path in sorted((ROOT / "include").glob("*.h")))
    rows = re.findall(r"^\| [^|]* \| `(\w+_STACK)` \| (\d+) (bytes|KiB) \|", PAGE, re.M)
    for name, figure, unit in rows:
        stated = int(re.search(STATED % (name, name), headers).group(1))
        expect(name, stated, int(figure) * (1024 if unit == "KiB" else 1))
    expect("stack figures", len(rows), len(re.findall(STATED % ((r"\w+_STACK",) * 2), headers)))
    return "%d figures of stack are those of the headers" % len(rows)


PARTS = (programs, quotations, normal_form, stack_figures)


def main():
    arguments = parser(__doc__)
    arguments.add_argument("--plain", action="store_true", help="over the plain C of bench/")
    add_parts(arguments, PARTS)
    given = arguments.parse_args()
    try:
        for part in chosen_parts(arguments, PARTS, given.names):
            print(part(given), flush=True)
    except Failed as failed:
        sys.exit("tests/docs/c_host.py: %s" % failed)


if __name__ == "__main__":
    main()
