"""Runs the programs through tools/launch: help, usage, exit statuses, links, files that cannot be read, output that cannot be written.

    python3 tests/launch/run.py [NAME ..]

Uses target/bin/sluice, which `tools/build sluice` makes, and target/bin/replay, histogram, shortest, export, strategy, statistics, join, migrate and record_counts
where they are there. How a program is built, what is passed on and how long it is kept is tested in a folder of its own, with stand-ins for `rt` and for the program.
"""

import os
import pathlib
import shutil
import subprocess
import sys
import tempfile
import time

ROOT = pathlib.Path(__file__).resolve().parents[2]
sys.path.insert(0, str(ROOT / "enumerator"))
from commands import parser  # noqa: E402
from export import export  # noqa: E402

SHEET = "x y\n0 0\n1 1\nx until y\n"
TABLE = "state final x y next\n0 0 0 1 1\n0 0 1 0 0\n0 0 1 1 1\n1 1 0 0 1\n1 1 0 1 1\n1 1 1 0 1\n1 1 1 1 1\n"
NO_SOLUTION = "x\n0\n1\nnext x == x + 1\n"
done = 0


def run(command, stdin=subprocess.DEVNULL, stdout=subprocess.PIPE, text=None, **more):
    given = {"input": text} if text is not None else {"stdin": stdin}
    return subprocess.run([str(word) for word in command], stdout=stdout, stderr=subprocess.PIPE, text=True, timeout=60, **given, **more)


def expect(case, answer, printed, status, told):
    """`told` is a part of standard error; an empty one says that nothing stands there."""
    global done
    done += 1
    right_words = told in answer.stderr if told else answer.stderr == ""
    if answer.returncode != status or (printed is not None and answer.stdout != printed) or not right_words:
        sys.exit(f"tests/launch/run.py: {case}: expected status {status}, {printed!r} and {told!r} on standard error, got {answer}")


def help_and_usage(name, few, many):
    tool = ROOT / "tools" / name
    answer = run([tool, "--help"])
    expect(f"{name} --help", answer, None, 0, "")
    if not answer.stdout.startswith(f"usage: tools/{name} ") or "Exit status" not in answer.stdout:
        sys.exit(f"tests/launch/run.py: {name} --help prints {answer.stdout!r}")
    expect(f"{name}, too many", run([tool] + ["a"] * many), "", 2, f"usage: tools/{name} ")
    if few is not None:
        expect(f"{name}, too few", run([tool] + ["a"] * few), "", 2, f"usage: tools/{name} ")


def full_device(command):
    with open("/dev/full", "w") as device:
        return run(command, stdout=device)


def sluice_cases(folder):
    tool = ROOT / "tools" / "sluice"
    sheet = folder / "until.sheet"
    sheet.write_text(SHEET)
    help_and_usage("sluice", None, 2)
    expect("a file", run([tool, sheet]), TABLE, 0, "")
    expect("standard input", run([tool], text=SHEET), TABLE, 0, "")
    expect("a refusal", run([tool], text=NO_SOLUTION), "refused 9\n", 1, "")
    expect("an empty sheet", run([tool], text=""), "refused 3\n", 1, "")
    expect("no such file", run([tool, folder / "none"]), "refused 3\n", 2, "none' cannot be read")
    expect("a folder", run([tool, folder]), "refused 3\n", 2, "cannot be read")
    expect("no standard input", run(["bash", "-c", 'exec "$0" <&-', tool]), "refused 3\n", 2, "cannot be read")
    expect("a full device", full_device([tool, sheet]), None, 2, "cannot be written")
    expect("no standard output", run(["bash", "-c", 'exec "$0" "$1" >&-', tool, sheet]), "", 2, "cannot be written")
    expect("a reader that stops", run(["bash", "-c", '"$0" "$1" | head -n 1', tool, sheet]), TABLE.splitlines(True)[0], 0, "")
    expect("amid other output", run(["bash", "-c", 'echo a; "$0" "$1"; echo b', tool, sheet]), f"a\n{TABLE}b\n", 0, "")
    appended = folder / "appended"
    run(["bash", "-c", '{ echo a; "$0" "$1"; echo b; } >"$2"', tool, sheet, appended])
    if appended.read_text() != f"a\n{TABLE}b\n":
        sys.exit(f"tests/launch/run.py: to a file amid other output: {appended.read_text()!r}")
    link = folder / "another name"
    link.symlink_to(tool)
    expect("a link", run([link, sheet]), TABLE, 0, "")
    expect("a link to a link, from another folder", run(["./again", sheet.name], cwd=linked(folder, link)), TABLE, 0, "")
    expect("no rt on the PATH", run([tool, sheet], env={"PATH": plain_tools(folder)}), TABLE, 0, "")
    if os.geteuid() != 0:
        sheet.chmod(0)
        expect("a file that may not be read", run([tool, sheet]), "refused 3\n", 2, "cannot be read")


def linked(folder, link):
    (folder / "again").symlink_to(link)
    return folder


def plain_tools(folder):
    """A folder with the system's tools and without `rt`, to stand alone on the PATH."""
    tools = folder / "plain"
    tools.mkdir()
    for name in ["bash", "cat", "chmod", "cp", "dirname", "find", "mkdir", "mv", "readlink", "rm", "sed", "seq", "sleep", "tail", "tee", "touch"]:
        (tools / name).symlink_to(shutil.which(name))
    return str(tools)


def is_there(name):
    there = (ROOT / "target" / "bin" / name).exists()
    if not there:
        print(f"tests/launch/run.py: target/bin/{name} is not there; its cases are left out")
    return there


def replay_cases(folder):
    tool = ROOT / "tools" / "replay"
    help_and_usage("replay", 1, 4)
    if not is_there("replay"):
        return
    sheet, record, missing = folder / "until.sheet", folder / "year", folder / "none"
    sheet.write_text(SHEET)
    record.write_text("x y\n1 0\n1 0\n0 1\n0 0\n")
    played = "line state\n1 0\n2 0\n3 1\n4 1\n"
    expect("a record", run([tool, sheet, record]), played, 0, "")
    expect("from a state", run([tool, sheet, record, "1"]), "line state\n1 1\n2 1\n3 1\n4 1\n", 0, "")
    expect("a start that is no state", run([tool, sheet, record, "2"]), "refused 11\n", 1, "")
    expect("an empty start", run([tool, sheet, record, ""]), "refused 11\n", 1, "")
    expect("no such sheet", run([tool, missing, record]), "refused 3\n", 2, "cannot be read")
    expect("no such record", run([tool, sheet, missing]), "refused 13\n", 2, "cannot be read")
    expect("a full device for a record", full_device([tool, sheet, record]), None, 2, "cannot be written")
    record.write_text("x y\n1 0\n0 0\n9\n")
    expect("a line that has no way on", run([tool, sheet, record]), "line state\n1 0\nrefused 12\n", 1, "")
    link = folder / "play"
    link.symlink_to(tool)
    expect("a link to replay", run([link, sheet, record]), "line state\n1 0\nrefused 12\n", 1, "")
    record.write_text("x y\n" + "1 1\n" * 200000)
    expect("a reader that stops amid many lines", run(["bash", "-c", '"$0" "$1" "$2" | head -n 1', tool, sheet, record]), "line state\n", 0, "")


def histogram_cases(folder):
    tool = ROOT / "tools" / "histogram"
    help_and_usage("histogram", 1, 3)
    if not is_there("histogram"):
        return
    sheet, record, missing = folder / "gates.sheet", folder / "year", folder / "none"
    sheet.write_text(SHEET)
    record.write_text("x y\n1 0\n1 0\n0 1\n")
    expect("counts", run([tool, sheet, record]), "stream value lines\nx 0 1\nx 1 2\ny 0 2\ny 1 1\ntotal 3\n", 0, "")
    expect("no such sheet to count by", run([tool, missing, record]), "refused 3\n", 2, "cannot be read")
    expect("no such record to count", run([tool, sheet, missing]), "refused 13\n", 2, "cannot be read")
    expect("a full device for counts", full_device([tool, sheet, record]), None, 2, "cannot be written")
    record.write_text("x y\n1 0\n2 0\n")
    expect("a value outside its range", run([tool, sheet, record]), "refused 14\n", 1, "")


def shortest_cases(folder):
    tool = ROOT / "tools" / "shortest"
    help_and_usage("shortest", 0, 3)
    if not is_there("shortest"):
        return
    sheet, missing = folder / "until.sheet", folder / "none"
    sheet.write_text(SHEET)
    expect("a course", run([tool, sheet]), "x y\n0 1\n", 0, "")
    expect("a course from a final state", run([tool, sheet, "1"]), "x y\n", 0, "")
    expect("a state that is none", run([tool, sheet, "2"]), "refused 11\n", 1, "")
    expect("an empty state", run([tool, sheet, ""]), "refused 11\n", 1, "")
    expect("no such sheet for a course", run([tool, missing]), "refused 3\n", 2, "cannot be read")
    expect("a full device for a course", full_device([tool, sheet]), None, 2, "cannot be written")
    sheet.write_text(NO_SOLUTION)
    expect("a sheet without a course", run([tool, sheet]), "refused 9\n", 1, "")


def export_cases(folder):
    tool = ROOT / "tools" / "export"
    help_and_usage("export", 0, 2)
    if not is_there("export"):
        return
    sheet, missing, stored = folder / "until.sheet", folder / "none", folder / "stored.h"
    sheet.write_text(SHEET)
    header = export(SHEET.encode()).decode()
    expect("a header", run([tool, sheet]), header, 0, "")
    expect("no such sheet for a header", run([tool, missing]), "refused 3\n", 2, "cannot be read")
    expect("a full device for a header", full_device([tool, sheet]), None, 2, "cannot be written")
    stored.write_text(header)
    expect("a stored header", run([tool, "--check", stored, sheet]), "", 0, "")
    expect("no such sheet to compare with", run([tool, "--check", stored, missing]), "refused 3\n", 2, "cannot be read")
    expect("no such header", run([tool, "--check", missing, sheet]), "", 2, "none' cannot be read")
    expect("a header without a name", run([tool, "--check", "", sheet]), "", 2, "cannot be read")
    expect("a folder for a header", run([tool, "--check", folder, sheet]), "", 2, "cannot be read")
    expect("a header and no sheet", run([tool, "--check", stored]), "", 2, "usage: tools/export ")
    for what, text in (("a shorter one", header[:-1]), ("a longer one", header + "\n"), ("a zero byte in it", header + "\0"), ("an empty one", ""),
                       ("another byte", header.replace("255", "254", 1)), ("another beginning", "x" + header)):
        stored.write_text(text)
        expect("a stored header, " + what, run([tool, "--check", stored, sheet]), "", 1, "stored.h' is not the header of")
    sheet.write_text(SHEET.replace("until", " until"))
    stored.write_text(header)
    expect("the header of another text", run([tool, "--check", stored, sheet]), "", 1, "is not the header of")
    sheet.write_text(NO_SOLUTION)
    expect("a sheet without a header", run([tool, sheet]), "refused 9\n", 1, "")
    expect("a stored header and a refused sheet", run([tool, "--check", stored, sheet]), "refused 9\n", 1, "")


def strategy_cases(folder):
    tool = ROOT / "tools" / "strategy"
    help_and_usage("strategy", 0, 2)
    if not is_there("strategy"):
        return
    sheet, missing = folder / "answer.sheet", folder / "none"
    sheet.write_text("r g\n0 0\n1 1\nread set\ng == r\n")
    expect("a play table", run([tool, sheet]), "state final r g next\n0 1 0 0 0\n0 1 1 1 0\n", 0, "")
    expect("no such sheet for a play table", run([tool, missing]), "refused 3\n", 2, "cannot be read")
    expect("a full device for a play table", full_device([tool, sheet]), None, 2, "cannot be written")
    sheet.write_text("r g\n0 0\n1 1\nread set\nr == 0\n")
    expect("a sheet that the river can break", run([tool, sheet]), "refused 16\n", 1, "")
    sheet.write_text(NO_SOLUTION)
    expect("a sheet without a play table", run([tool, sheet]), "refused 9\n", 1, "")


def statistics_cases(folder):
    tool = ROOT / "tools" / "statistics"
    help_and_usage("statistics", 0, 2)
    if not is_there("statistics"):
        return
    sheet, missing = folder / "until.sheet", folder / "none"
    sheet.write_text(SHEET)
    expect("sizes", run([tool, sheet]), "letters 4\nahead 0\nback 0\nsituations 3\nstates 2\nrows 256\n", 0, "")
    expect("no such sheet for sizes", run([tool, missing]), "refused 3\n", 2, "cannot be read")
    expect("a full device for sizes", full_device([tool, sheet]), None, 2, "cannot be written")
    sheet.write_text(NO_SOLUTION)
    expect("the sizes of a sheet without a table", run([tool, sheet]), "letters 2\nahead 1\nback 0\nsituations 4\nrows 256\nrefused 9\n", 1, "")


def migrate_cases(folder):
    tool = ROOT / "tools" / "migrate"
    help_and_usage("migrate", 1, 3)
    if not is_there("migrate"):
        return
    old, new, missing = folder / "old.sheet", folder / "new.sheet", folder / "none"
    old.write_text(SHEET)
    new.write_text("x y\n0 0\n1 1\n")
    expect("a new sheet", run([tool, old, new]), "old new\n0 0\n1 0\n", 0, "")
    expect("a sheet that cannot take over", run([tool, new, old]), "refused 18\n", 1, "")
    expect("no such old sheet", run([tool, missing, new]), "refused 3\n", 2, "cannot be read")
    expect("no such new sheet", run([tool, old, missing]), "refused 3\n", 2, "cannot be read")
    expect("a full device for a list", full_device([tool, old, new]), None, 2, "cannot be written")
    new.write_text("y x\n0 0\n1 1\n")
    expect("streams in another order", run([tool, old, new]), "refused 17\n", 1, "")


def join_cases(folder):
    tool = ROOT / "tools" / "join"
    help_and_usage("join", 1, 3)
    if not is_there("join"):
        return
    first, second, missing = folder / "upper.sheet", folder / "lower.sheet", folder / "none"
    first.write_text("level up\n0 0\n1 1\nread set\nlevel -> up\n")
    second.write_text("low level\n0 0\n1 1\nset read\nlow == level\n")
    joined = "state final level up low next\n0 1 0 0 0 0\n0 1 0 1 0 0\n0 1 1 1 1 0\n"
    expect("two sheets", run([tool, first, second]), joined, 0, "")
    expect("no such first sheet", run([tool, missing, second]), "refused 3\n", 2, "cannot be read")
    expect("no such second sheet", run([tool, first, missing]), "refused 3\n", 2, "cannot be read")
    expect("a full device for a join", full_device([tool, first, second]), None, 2, "cannot be written")
    second.write_text("low level\n0 0\n1 1\nlow == level\n")
    expect("a gauge that is set in the other sheet", run([tool, first, second]), "refused 17\n", 1, "")
    second.write_text(NO_SOLUTION)
    expect("a second sheet without a solution", run([tool, first, second]), "refused 9\n", 1, "")


def record_counts_cases(folder):
    tool = ROOT / "tools" / "record_counts"
    help_and_usage("record_counts", None, 2)
    if not is_there("record_counts"):
        return
    counted, missing = folder / "counted", folder / "none"
    counted.write_text("2\n" + SHEET)
    figures = "0 1 0\n1 3 2\n2 11 10\n"
    expect("figures of a file", run([tool, counted]), figures, 0, "")
    expect("figures of standard input", run([tool], text=counted.read_text()), figures, 0, "")
    expect("too many letters", run([tool], text="65\n" + SHEET), "refused 19\n", 1, "")
    expect("no number", run([tool], text=SHEET), "refused 3\n", 1, "")
    expect("no such input", run([tool, missing]), "refused 3\n", 2, "cannot be read")
    expect("a full device for figures", full_device([tool, counted]), None, 2, "cannot be written")


def stand_in(path, text):
    path.write_text("#!/usr/bin/env bash\n" + text)
    path.chmod(0o755)


def stand_in_cases(folder):
    """A folder with the tools and stand-ins for `rt` and the program."""
    for part in ["tools", "crates", "bin", "crates/sluice", "crates/sluice/src"]:
        (folder / part).mkdir()
    (folder / "crates.txt").write_text("sluice:\n")
    (folder / "crates" / "sluice" / "src" / "main.rt").write_text("")
    for name in ["launch", "sluice", "build"]:
        shutil.copy(ROOT / "tools" / name, folder / "tools" / name)
    tool = folder / "tools" / "sluice"
    program = folder / "target" / "bin" / "sluice"
    plain = plain_tools(folder)
    path = {"PATH": f"{folder / 'bin'}:{plain}"}

    expect("no rt and no program", run([tool], env={"PATH": plain}), "", 2, "'rt' is needed")
    proved = "echo 'crate %s: modules loaded=0 checked=5' >&2; echo 'logic=proved functions=3 sum=0' >&2; "
    stand_in(folder / "bin" / "rt", proved % "basics" + "echo 'error: no' >&2; exit 1")
    expect("a proof that fails", run([tool], env=path), "", 2, "basics proved\n")
    stand_in(
        folder / "bin" / "rt",
        "[ \"$* ${PWD##*/}\" = 'run sluice' ] || exit 1; mkdir -p out; printf '#!/bin/sh\\ncat\\n' >out/sluice; chmod +x out/sluice\n"
        "cat; echo 'fn basics::fewer: proved' >&2; " + proved % "basics" + "echo 'rt: text: begins with what a check kept in /unchanged/crates/text' >&2\n"
        "echo 'rt: running out/sluice' >&2; echo refused 3; exit 5\n",
    )
    first = run([tool], text="state\n1\n", env=path)
    expect("the first call", first, "state\n1\n", 0, "basics proved\n")
    if "fewer" in first.stderr or "unchanged" in first.stderr:
        sys.exit(f"tests/launch/run.py: the first call tells too much: {first.stderr!r}")
    stand_in(folder / "bin" / "rt", "exit 1")
    expect("a later call", run([tool], text="state\nrefused 12\n", env=path), "state\nrefused 12\n", 1, "")
    expect("a refusal is a line of its own", run([tool], text="unrefused 12\n", env=path), "unrefused 12\n", 0, "")
    expect("a refusal stands last", run([tool], text="refused 12\nstate\n", env=path), "refused 12\nstate\n", 0, "")

    stand_in(program, "echo state; echo 'something failed' >&2")
    expect("something on standard error", run([tool], env=path), "state\n", 2, "something failed")
    stand_in(program, "echo state; kill -9 $$")
    expect("a program that is stopped", run([tool], env=path), "state\n", 2, "was stopped")
    stand_in(program, "seq 300000; echo 'refused 12'")
    many = "".join(f"{n}\n" for n in range(1, 300001)) + "refused 12\n"
    expect("many lines", run([tool], env=path), many, 1, "")

    seen = folder / "seen"
    stand_in(program, f"echo first; for i in $(seq 300); do [ -e '{seen}' ] && echo last && exit; sleep 0.1; done; echo late")
    with subprocess.Popen([str(tool)], stdin=subprocess.DEVNULL, stdout=subprocess.PIPE, env=path, text=True) as running:
        line = running.stdout.readline()
        seen.write_text("")
        rest = running.stdout.read()
    if (line, rest, running.returncode) != ("first\n", "last\n", 0):
        sys.exit(f"tests/launch/run.py: a line is passed on as it comes: {line!r}, {rest!r}, status {running.returncode}")

    stand_in(folder / "bin" / "rt", proved % "text" + "printf '#!/bin/sh\\necho anew\\n' >out/sluice; chmod +x out/sluice")
    later = time.time() + 10
    (folder / "crates" / "lib.rt").write_text("")
    os.utime(folder / "crates" / "lib.rt", (later, later))
    expect("a source that changed", run([tool], env=path), "anew\n", 0, "text proved\n")


def build():
    """A program that is older than a source is built by its first call, which says so on standard error."""
    for name, arguments in [("sluice", []), ("replay", ["", ""]), ("histogram", ["", ""]), ("shortest", [""]), ("export", [""]), ("strategy", [""]), ("statistics", [""]), ("join", ["", ""]), ("migrate", ["", ""])]:
        if (ROOT / "target" / "bin" / name).exists():
            subprocess.run([str(ROOT / "tools" / name), *arguments], stdin=subprocess.DEVNULL, capture_output=True)


def main():
    arguments = parser(__doc__)
    arguments.add_argument("names", nargs="*", metavar="NAME", help="the cases to run, as sluice or stand-in, all if none is named")
    names = arguments.parse_args().names
    build()
    for cases in [sluice_cases, replay_cases, histogram_cases, shortest_cases, export_cases, strategy_cases, statistics_cases, join_cases, migrate_cases, record_counts_cases,
                  stand_in_cases]:
        if names and cases.__name__.removesuffix("_cases").replace("_", "-") not in names:
            continue
        with tempfile.TemporaryDirectory() as folder:
            cases(pathlib.Path(folder))
    print(f"{done} cases: help, usage, statuses, links, reads and writes that fail, the first call")


main()
