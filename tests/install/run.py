"""Tests tools/install in folders of its own, and the man pages.

    python3 tests/install/run.py [NAME ..]

Installs what is built, and calls it from another folder without `rt` on the PATH; with a stand-in for `rt` what is not built
is built. Each program has a man page whose synopsis is the usage of the program, and a row in README.md. CC may name another C compiler.
"""

import os
import pathlib
import re
import shutil
import subprocess
import sys
import tempfile

ROOT = pathlib.Path(__file__).resolve().parents[2]
sys.path.insert(0, str(ROOT / "enumerator"))
from commands import add_parts, chosen_parts, parser  # noqa: E402
from sluice import sluice  # noqa: E402

PLAIN_PATH = "/usr/bin:/bin"
SECTIONS = ["NAME", "SYNOPSIS", "DESCRIPTION", "EXIT STATUS", "EXAMPLES", "SEE ALSO"]
SHEET = ROOT / "examples" / "rise.sheet"
LONGEST_RUN = 300
# Makes what `rt run` and `rt lib` make, in the crate's folder where it is called.
STAND_IN = """#!/bin/sh
name=$(basename "$PWD")
mkdir -p out
case $1 in
run) printf '#!/bin/sh\\necho %s\\n' "$name" >out/$name; chmod +x out/$name ;;
lib) echo "$name" >out/lib$name.a ;;
esac
"""


class Failed(Exception):
    """A part of the test failed."""


def expect(what, got, wanted):
    if got != wanted:
        raise Failed("%s: expected %r, got %r" % (what, wanted, got))


def run(command, **more):
    return subprocess.run([str(word) for word in command], capture_output=True, text=True, timeout=LONGEST_RUN, stdin=subprocess.DEVNULL, **more)


def programs():
    """The programs, those that tools/launch starts, and `explain`."""
    return sorted(path.name for path in (ROOT / "tools").iterdir() if path.name == "explain" or '/launch" %s' % path.name in path.read_text())


def usage(name):
    """The arguments of a program by its --help: the first line, with those behind it that begin with a space."""
    text = re.match(r"usage: tools/\S+ (?:\[-h\] )?(.*(?:\n .*)*)", run([ROOT / "tools" / name, "--help"]).stdout).group(1)
    return re.sub(r"\s+", " ", text)


def synopsis(text):
    """The arguments of a man page's synopsis, without its fonts."""
    lines = text.split(".SH SYNOPSIS\n")[1].split("\n.SH")[0].splitlines()
    return re.sub(r"\\f[A-Z]", "", " ".join(lines[1:])).replace("\\-", "-").strip()


def man_pages():
    """Each program has a page, with its synopsis and all sections, that groff takes without a warning."""
    expect("man pages", sorted(path.stem for path in (ROOT / "man").glob("*.1")), programs())
    for name in programs():
        page = ROOT / "man" / (name + ".1")
        text = page.read_text()
        expect("the sections of " + page.name, [part for part in re.findall(r"^\.SH (.*)$", text, re.M) if part != "REFUSALS"], SECTIONS)
        expect("the name in " + page.name, text.startswith(".TH %s 1 " % name.upper()) and "\n%s \\- " % name in text, True)
        expect("the synopsis of " + page.name, synopsis(text), usage(name))
        expect("see also in " + page.name, sorted(re.findall(r"^\.BR (\S+) \(1\),?$", text.split(".SH SEE ALSO")[1], re.M)),
               [other for other in programs() if other != name])
        if shutil.which("groff"):
            expect("what groff says of " + page.name, run(["groff", "-man", "-Tutf8", "-ww", page]).stderr, "")
    return "%d man pages" % len(programs())


def installed():
    """What is built, put in place twice, and called from there."""
    with tempfile.TemporaryDirectory() as name:
        folder = pathlib.Path(name)
        for _ in range(2):
            done = run([ROOT / "tools" / "install", "--built", folder / "prefix"])
            expect("the status of an install", done.returncode, 0)
        there = sorted(path.name for path in (folder / "prefix" / "bin").iterdir())
        built = [program for program in programs() if program == "explain" or (ROOT / "target" / "bin" / program).exists()]
        expect("the programs", there, built)
        expect("their man pages", sorted(path.stem for path in (folder / "prefix/share/man/man1").iterdir()), built)
        for program in built:
            called = run([folder / "prefix" / "bin" / program, "--help"], cwd=folder, env={"PATH": PLAIN_PATH})
            expect("%s --help" % program, (called.returncode, called.stdout.startswith("usage: %s " % program)), (0, True))
        if "sluice" in built:
            called = run([folder / "prefix/bin/sluice", SHEET], cwd=folder, env={"PATH": PLAIN_PATH})
            expect("the installed sluice", (called.returncode, called.stdout), (0, sluice(SHEET.read_bytes()).decode()))
        explained = run([folder / "prefix/bin/explain", SHEET], cwd=folder, env={"PATH": PLAIN_PATH})
        expect("the installed explain", (explained.returncode, explained.stdout.startswith("accepted\n")), (0, True))
        return "%d programs installed and called; %s" % (len(built), linked(folder))


def linked(folder):
    """A program in C over the installed header and archive."""
    prefix = folder / "prefix"
    if not (prefix / "lib" / "libstep.a").exists():
        return "libstep.a is not built: nothing linked"
    compiled = run([os.environ.get("CC", "cc"), "-I", prefix / "include" / "compiler", ROOT / "examples" / "cabinet.c", prefix / "lib" / "libstep.a",
                    "-o", folder / "cabinet"])
    expect("compiling over the installed files", (compiled.returncode, compiled.stderr), (0, ""))
    expect("the cabinet", run([folder / "cabinet"]).stdout, (ROOT / "examples" / "cabinet.expected").read_text())
    return "examples/cabinet.c linked with the installed archive"


def built_first():
    """What is not built is built first, by a stand-in for `rt`; a build that fails is told."""
    with tempfile.TemporaryDirectory() as name:
        folder = pathlib.Path(name)
        for part in ("tools", "include", "man", "enumerator"):
            shutil.copytree(ROOT / part, folder / "tree" / part, ignore=shutil.ignore_patterns("__pycache__"))
        archives = set(re.findall(r"lib[a-z_]*\.a", "".join(path.read_text() for path in (ROOT / "include").glob("*.h"))))
        # The archive of the step has the name of its header, and its crate is step_c.
        libraries = ["step_c" if archive == "libstep.a" else archive[3:-2] for archive in archives]
        (folder / "tree/crates.txt").write_text("".join("%s:\n" % program for program in programs()) + "".join("%s staticlib: basics\n" % crate for crate in libraries))
        for source in ["%s/src/main.rt" % program for program in programs()] + ["%s/src/lib.rt" % crate for crate in libraries]:
            (folder / "tree/crates" / source).parent.mkdir(parents=True)
            (folder / "tree/crates" / source).write_text("")
        (folder / "bin").mkdir()
        stand_in = folder / "bin" / "rt"
        stand_in.write_text(STAND_IN)
        stand_in.chmod(0o755)
        path = {"PATH": "%s:%s" % (folder / "bin", PLAIN_PATH)}
        done = run([folder / "tree/tools/install", folder / "prefix"], env=path)
        expect("an install that builds", (done.returncode, done.stderr), (0, ""))
        expect("the programs", sorted(path.name for path in (folder / "prefix/bin").iterdir()), programs())
        expect("the archives", {path.name for path in (folder / "prefix/lib").glob("*.a")}, archives)
        expect("a program", run([folder / "prefix/bin/sluice"], env=path).stdout, "sluice\n")
        shutil.rmtree(folder / "tree/target")
        stand_in.write_text("#!/bin/sh\nexit 1\n")
        done = run([folder / "tree/tools/install", folder / "other"], env=path)
        expect("a build that fails", (done.returncode, "cannot be built" in done.stderr), (2, True))
    return "programs and archives built first"


def arguments_given():
    """Usage, and a folder that cannot be made."""
    tool = ROOT / "tools" / "install"
    for what, arguments, wanted in (("no folder", [], 2), ("two folders", ["a", "b"], 2), ("an option", ["--all"], 2), ("help", ["--help"], 0),
                                    ("a folder below a file", [ROOT / "crates.txt" / "prefix"], 2)):
        expect(what, run([tool, *arguments]).returncode, wanted)
    return "usage"


def front_page():
    """README.md lists each program with its arguments, and its page is there."""
    rows = re.findall(r"^\| `tools/(\S+) ?([^`]*)` \|[^|]*\| `([^`]*)` \|$", (ROOT / "README.md").read_text(), re.M)
    expect("the programs of README.md", sorted(name for name, _, _ in rows), programs())
    for name, given, page in rows:
        expect("the arguments of %s in README.md" % name, given, re.sub(r"\[--[^]]*\] ", "", usage(name)))
        expect("the page " + page, (ROOT / page).exists(), True)
    return "%d programs on the front page" % len(rows)


PARTS = (man_pages, front_page, installed, built_first, arguments_given)


def main():
    arguments = parser(__doc__)
    add_parts(arguments, PARTS)
    given = arguments.parse_args()
    try:
        for part in chosen_parts(arguments, PARTS, given.names):
            print(part(), flush=True)
    except Failed as failed:
        sys.exit("tests/install/run.py: %s" % failed)


if __name__ == "__main__":
    main()
