"""Why a sheet is refused, and how to mend it.

    python3 enumerator/explain.py [--rows ROWS] [--program PROGRAM] SHEET

For refusals 1 to 7 each fault with its line, its token and how to mend it; for
7, 8 and 10 the letters, D, B, situations and rows, with the rules that set D
and B; for 9 a smallest set of rules that contradict each other; for an
accepted sheet with gauges the readings that a state forbids.  The number is
compared with that of the proved program first.
"""

import argparse
import pathlib
import signal
import subprocess
import sys
from collections import deque, namedtuple

from compiler import analyse, compile_analysed
from contradiction import contradiction, longest_record
from faults import (SHEET_FAULTS, TEXT_FAULTS, TITLES, counted, numbered,
                    rule_back, rule_reach, token_column)
from game import choices, kept_rows, letter_choices, play_table
from grammar import split_lines
from intervals import deepest_back, deepest_reach, firsts, untils
from limits import NO_ENTRY, SITUATIONS
from reading import form, letter_count, read
from situations import letters
from sluice import lent_rows

ROOT = pathlib.Path(__file__).resolve().parents[1]
PROGRAM = ROOT / "target" / "bin" / "sluice"
# In an installed tree (tools/install) there are no sources.
NAME = "tools/explain" if (ROOT / "crates").is_dir() else "explain"
LONGEST_RUN = 60
# Faults, states and readings that are listed; those behind them are counted.
LISTED = 20
# Letters that are tried beyond the rows to count the situations of a 10.
COUNTED_LETTERS = 200_000
WIDEST = 96

# refusal: 0 or 1 to 10.  lines: what is told of it.
Explanation = namedtuple("Explanation", "refusal lines")


def listed(items, noun):
    """The first items, and how many more there are."""
    more = len(items) - LISTED
    return items[:LISTED] + (["and %s" % counted(more, "more " + noun)]
                             if more > 0 else [])


# ---- refusals 1 to 7

def pointed(line, place):
    """The line with a mark under its token, cut where it is long."""
    start, length = token_column(line, place)
    first = max(0, start - WIDEST // 2)
    shown = line[first:first + WIDEST]
    before, behind = "... " if first else "", ""
    if first + WIDEST < len(line):
        behind = " ..."
    mark = " " * (len(before) + start - first) + "^" * min(length, WIDEST // 2)
    return ["    " + before + shown + behind, "    " + mark]


def fault_lines(fault, lines):
    """The place of a fault, the line with a mark, and how to mend it."""
    if fault.line is None:
        place, shown = "the whole sheet", []
    else:
        place, shown = "line %d" % fault.line, []
        if fault.token is not None:
            line = lines[fault.line - 1]
            start, length = token_column(line, fault.token)
            text = line[start:start + length]
            place += ", token %d, `%s`" % (
                fault.token + 1, text if length <= 24 else text[:20] + "...")
            shown = pointed(line, fault.token)
        elif 0 < fault.line <= len(lines):
            shown = ["    " + lines[fault.line - 1][:WIDEST]]
    return (["%s: %s" % (place, fault.what)]
            + [line for line in shown if line.strip()]
            + ["    " + fault.mend])


def reading_lines(refusal, text):
    """What is told of refusals 1 to 7."""
    faults = (TEXT_FAULTS[refusal](text) if refusal in TEXT_FAULTS
              else SHEET_FAULTS[refusal](form(text)))
    lines = [line.decode("latin-1") for line in split_lines(text)]
    if refusal == 1:
        lines = [""] * len(lines)
    told = listed([fault_lines(fault, lines) for fault in faults], "fault")
    found = [line for item in told
             for line in ([item] if isinstance(item, str) else item)]
    if refusal != 7:
        return found
    rows = lent_rows(letter_count(form(text)))
    return found + size_lines(form(text), text) + [
        "rows %s, situations not counted" % numbered(rows)]


# ---- letters, D, B, situations and rows

def rule_text(text, constraint):
    number = constraint.place[0]
    line = split_lines(text)[number].decode("latin-1").strip()
    return "line %d: %s" % (number + 1, line if len(line) <= WIDEST
                            else line[:WIDEST] + " ...")


def setting_lines(name, meaning, value, of_rule, sheet, text):
    """D or B, with the rules that set it."""
    lines = ["%s %d, %s%s" % (name, value, meaning,
                              ", set by" if value else "")]
    if value:
        lines += listed(["  " + rule_text(text, rule)
                         for rule in sheet.constraints
                         if of_rule(rule) == value], "rule")
    return lines


def size_lines(sheet, text):
    """The letters with the size of each range, D and B with the rules that
    set them, and how many untils and firsts there are."""
    sizes = ["%s %s" % (name, numbered(high - low + 1)) for name, low, high
             in zip(sheet.names, sheet.lows, sheet.highs)]
    rules = sheet.constraints
    return (["letters %s: %s" % (numbered(letter_count(sheet)),
                                 ", ".join(sizes))]
            + setting_lines("D", "the times that the rules look ahead",
                            deepest_reach(rules), rule_reach, sheet, text)
            + setting_lines("B", "the times that they look back",
                            deepest_back(rules), rule_back, sheet, text)
            + ["untils %d, firsts %d" % (len(untils(rules)),
                                         len(firsts(rules)))])


def too_many_lines(sheet, text, rows, situations):
    """What is told of refusals 8 and 10."""
    window = deepest_reach(sheet.constraints) + deepest_back(sheet.constraints)
    return [
        "situations %s, rows %s" % (situations, numbered(rows)),
        *size_lines(sheet, text),
        "A situation is the last D+B = %s, the value of each `first`, and "
        "whether each `until` is done." % counted(window, "letter"),
        "Make D+B smaller (`fby` instead of `next`, a stream that counts "
        "instead of nested `next`), narrow ranges, or take streams out that "
        "follow from others (`docs/sheets.md`, Patterns); or call the compile "
        "from a program that lends more rows, up to 4,096."
        if rows < SITUATIONS else
        "Make D+B smaller, narrow ranges, or take streams out that follow from "
        "others (`docs/sheets.md`, Patterns)."]


def counted_situations(text, rows):
    """The situations of a sheet that has more of them than rows, counted
    while that takes no long time."""
    bound = min(SITUATIONS, max(rows, COUNTED_LETTERS
                                // letter_count(read(text)[1])))
    situations = analyse(text, bound).situations
    return ("more than %s" % numbered(bound) if situations is None
            else numbered(situations))


# ---- no solution

def record_lines(sheet, record):
    """The letters of a record under the names."""
    values = letters(sheet)
    return [" ".join(sheet.names)] + [
        " ".join(map(str, values[letter])) for letter in record]


def no_solution_lines(sheet, text):
    found = contradiction(sheet)
    rules = [sheet.constraints[rule] for rule in found.rules]
    if len(rules) == 1:
        lines = ["one rule has no solution by itself:"]
    else:
        lines = ["%d rules contradict each other, and %s:" % (
            len(rules), "no fewer rules of the sheet do" if found.is_least
            else "none of them was found that could be left out")]
    lines += ["  " + rule_text(text, rule) for rule in rules]
    return (lines + how_far_lines(sheet, longest_record(sheet, found.rules))
            + ["Take %s out, or make it hold less often." % (
                "the rule" if len(rules) == 1 else "one of them")])


def how_far_lines(sheet, record):
    """How long rules without a solution can be kept."""
    if record is None:
        return ["There are endless courses that break nothing, but an `until` "
                "never comes about in them."]
    if not record:
        return ["Nothing that the streams could do at time 0 keeps that."]
    return (["At most %s can be gone before there is no way on:"
             % counted(len(record), "time")]
            + ["    " + line for line
               in listed(record_lines(sheet, record), "time")])


# ---- accepted sheets

def access_records(entries):
    """For each state a shortest record that leads to it."""
    records, waiting = {0: []}, deque([0])
    while waiting:
        state = waiting.popleft()
        for letter, entry in enumerate(entries[state]):
            if entry != NO_ENTRY and entry not in records:
                records[entry] = records[state] + [letter]
                waiting.append(entry)
    return records


def forbidden_readings(sheet, entries):
    """For each state that forbids some, the choices of the river that none of
    its entries has (document 02, S-7)."""
    chosen = letter_choices(sheet)
    forbidden = {}
    for state, row in enumerate(entries):
        open_choices = {choice for choice, entry in zip(chosen, row)
                        if entry != NO_ENTRY}
        closed = [choice for choice in range(max(chosen) + 1)
                  if choice not in open_choices]
        if closed:
            forbidden[state] = closed
    return forbidden


def gauge_lines(sheet, compiled):
    """Which readings some state forbids, and whether the keeper can keep the
    rules whatever the river does."""
    gauges = [name for name, kind in zip(sheet.names, sheet.kinds)
              if kind == "read"]
    if not gauges:
        return []
    values, forbidden = choices(sheet), forbidden_readings(sheet,
                                                           compiled.entries)
    records, lines = access_records(compiled.entries), []
    for state, closed in forbidden.items():
        readings = listed([" ".join("%s %d" % pair for pair
                                    in zip(gauges, values[choice]))
                           for choice in closed], "reading")
        reached = listed(record_lines(sheet, records[state]), "time")
        lines.append("state %d, %s, forbids %s" % (
            state, "reached by " + " | ".join(reached) if state
            else "the start", ", ".join(readings)))
    play = play_table(compiled.entries, compiled.finals, letter_choices(sheet))
    return ((listed(lines, "state") or ["no state forbids a reading"])
            + ["the keeper can keep the rules whatever the river does"
               if kept_rows(play)[0] else
               "the river can prevent a solution: `strategy` prints "
               "`refused 16` (`docs/strategies.md`)"])


def accepted_lines(sheet, text, compiled, rows):
    return [
        "states %s, of them final %s" % (numbered(compiled.states),
                                         numbered(sum(compiled.finals))),
        "situations %s, rows %s" % (numbered(compiled.situations),
                                    numbered(rows)),
        *size_lines(sheet, text), *gauge_lines(sheet, compiled)]


# ---- the whole

def explanation(text, rows=None):
    """What is told of a sheet whose tables hold the given rows, those that
    `sluice` lends where none are given."""
    refusal, sheet = read(text)
    if refusal:
        return Explanation(refusal, reading_lines(refusal, text))
    if rows is None:
        rows = lent_rows(letter_count(sheet))
    compiled = compile_analysed(analyse(text, min(rows, SITUATIONS)), rows)
    if compiled.refusal in (8, 10):
        lines = too_many_lines(sheet, text, rows,
                               counted_situations(text, min(rows, SITUATIONS)))
    elif compiled.refusal == 9:
        lines = no_solution_lines(sheet, text)
    else:
        lines = accepted_lines(sheet, text, compiled, rows)
    return Explanation(compiled.refusal, lines)


def explained(text, rows=None):
    """The lines that are printed."""
    told = explanation(text, rows)
    head = ("refused %d: %s" % (told.refusal, TITLES[told.refusal])
            if told.refusal else "accepted")
    return told.refusal, [head] + told.lines


def number_of(printed):
    """The number that `sluice` printed, 0 for a table."""
    first = printed.split(b"\n", 1)[0].split()
    return int(first[1]) if first[:1] == [b"refused"] else 0


def sluice_number(text):
    """The number that the enumerator gives where `sluice` lends its rows."""
    refusal, sheet = read(text)
    if refusal:
        return refusal
    rows = lent_rows(letter_count(sheet))
    return compile_analysed(analyse(text, rows), rows).refusal


def other_number(text, program):
    """What is told where the proved program's number is another, or None."""
    done = subprocess.run([str(program)], input=text, capture_output=True,
                          timeout=LONGEST_RUN, check=True)
    proved, own = number_of(done.stdout), sluice_number(text)
    if proved == own:
        return None
    return ("DIFFERENCE: the proved program gives %s, and what follows is for "
            "%s: believe the proved program"
            % (given_number(proved), given_number(own)))


def given_number(refusal):
    return "`refused %d`" % refusal if refusal else "a table"


def main():
    # A reader that wants no more is not told of.
    signal.signal(signal.SIGPIPE, signal.SIG_DFL)
    parser = argparse.ArgumentParser(
        prog=NAME,
        description="Says why a sheet is refused, where, and how to mend it; "
        "of an accepted sheet its sizes, and the readings that a state "
        "forbids. The number is compared with the proved program's first.",
        epilog="Exit status: 0 the sheet is accepted, 1 it is refused, 2 it "
        "could not be read, or the proved program gives another number.")
    parser.add_argument("sheet", metavar="SHEET", help="the sheet's file")
    parser.add_argument("--rows", type=int, metavar="ROWS",
                        help="the rows of the host that compiles the sheet "
                        "(those of sluice if not given)")
    parser.add_argument("--program", type=pathlib.Path, default=PROGRAM,
                        metavar="PROGRAM", help="the proved program sluice")
    given = parser.parse_args()
    try:
        text = pathlib.Path(given.sheet).read_bytes()
    except OSError as error:
        print("%s: %s" % (NAME, error), file=sys.stderr)
        return 2
    other = None
    if given.program.exists():
        other = other_number(text, given.program)
    else:
        print("%s: not compared with the proved program, which is not built; "
              "tools/sluice builds it" % NAME, file=sys.stderr)
    refusal, lines = explained(text, given.rows)
    print("\n".join(([other] if other else []) + lines))
    return 2 if other else int(refusal > 0)


if __name__ == "__main__":
    sys.exit(main())
