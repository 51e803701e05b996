"""The second route for `carry.py` and `migrate.py`.

- Any two given tables: all records up to a length, one by one, followed by
  steps on the bytes of both tables; and long records that are drawn.
- Three sheets: lists one after the other.
- Two sheets: records followed along the lines that `sluice` prints, by their
  values, and the states that `replay` prints for them.
"""

from carry import carry
from carry_cases import (SHEETS, drawn_case, drawn_change, drawn_sheets,
                         written_cases)
from given_cases import compiled_table, rows_of_text
from given_check import Steps, fit_sheet, table_of_sheet
from limits import NO_ENTRY
from migrate import migrate
from replay import replay
from shortest_check import Printed
from sluice import sluice

RECORD_BOUND = 4000
LONG_RECORDS = 5
LETTERS_LONG = 30


def worked_fault():
    """A case worked out by hand with another answer, or None."""
    tables = [(name, compiled_table(old), compiled_table(new), *wanted)
              for name, old, new, *wanted in SHEETS]
    for name, old, new, refusal, wanted in (*tables, *written_cases()):
        rows = len(old.finals)
        numbers = [0] * rows if refusal else rows_of_text(wanted)[0]
        if carry(old, new, rows) != (refusal, numbers):
            return name, carry(old, new, rows)
    return None


# ---- all records up to a length

def followed(steps, record):
    """The state that a record leads to, or None."""
    state = 0
    for letter in record:
        if state is not None:
            state = steps.after(state, letter)
    return state


def all_records(steps, longest):
    """All records of at most so many letters along which the table can be
    followed, with the state that each leads to; None if they are too many."""
    found = level = [((), 0)]
    for _ in range(longest):
        level = [(record + (letter,), steps.after(state, letter))
                 for record, state in level
                 for letter in range(steps.given.letters)
                 if steps.after(state, letter) is not None]
        found = found + level
        if len(found) > RECORD_BOUND:
            return None
    return found


def led_to(old, new):
    """For each old row what its records come to in the new table; None if
    there are too many.  A row is reached by fewer letters than there are rows,
    so with one letter more every entry that a record can follow is looked at.
    """
    steps = Steps(new)
    records = all_records(Steps(old), len(old.finals))
    if records is None:
        return None
    found = {row: set() for row in range(len(old.finals))}
    for record, row in records:
        found[row].add(followed(steps, record))
    return found


def by_records(old, new, room):
    """The refusal and the list, or None if there are too many records."""
    sheets = [fit_sheet(table) for table in (old, new)]
    if None in sheets:
        return 11, [0] * room
    if sheets[0] != sheets[1]:
        return 17, [0] * room
    found = led_to(old, new)
    if found is None:
        return None
    if any(len(states) > 1 or None in states for states in found.values()):
        return 18, [0] * room
    carried = [min(states, default=NO_ENTRY) for states in found.values()]
    if len(carried) > room:
        return 10, [0] * room
    return 0, carried + [0] * (room - len(carried))


def long_record_fault(rng, old, new, answer):
    """A long record after which the gate does not stand "where it would have
    stood under the new sheet from the first reading", or None."""
    steps, record, state = Steps(old), [], 0
    for _ in range(rng.randrange(LETTERS_LONG)):
        ways = [letter for letter in range(old.letters)
                if steps.after(state, letter) is not None]
        if not ways:
            break
        record.append(rng.choice(ways))
        state = steps.after(state, record[-1])
    if answer.list[state] == followed(Steps(new), record):
        return None
    return record


def tables_difference(rng):
    """Two drawn tables on which the routes differ, or None."""
    old, new = drawn_case(rng)
    room = max(0, len(old.finals) + rng.choice((-1, 0, 0, 1, 4)))
    wanted = by_records(old, new, room)
    answer = carry(old, new, room)
    if wanted is not None and answer != wanted:
        return old, new, room, answer, wanted
    for _ in range(LONG_RECORDS if answer.refusal == 0 else 0):
        fault = long_record_fault(rng, old, new, answer)
        if fault is not None:
            return old, new, fault
    return None


# ---- three sheets

def drawn_three(rng):
    old, between = drawn_sheets(rng)
    return old, between, drawn_change(rng, between)


def three_difference(rng, drawn=None):
    """Three drawn sheets of which the first can hand over to the second, and
    the second to the third, but not, or not by both lists one after the other,
    the first to the third; or one that does not hand over to itself as it
    stands.  Or None."""
    old, between, new = drawn or drawn_three(rng)
    tables = [table_of_sheet(text) for text in (old, between, new)]
    if None in tables:
        return None
    first, last, both, same = (
        carry(tables[one], tables[other], len(tables[one].finals))
        for one, other in ((0, 1), (1, 2), (0, 2), (0, 0)))
    if same != (0, list(range(len(tables[0].finals)))):
        return old, between, new, same
    if first.refusal or last.refusal:
        return None
    wanted = [last.list[state] for state in first.list]
    return None if both == (0, wanted) else (old, between, new, both, wanted)


# ---- two sheets

def header(text):
    """The names, ranges and kinds that a sheet with a line of kinds has."""
    return [line.split() for line in text.decode().split("\n")[:4]]


def by_lines(old, new):
    """What `migrate` prints, from the lines of the printed tables: the states
    that lines with the same values lead to."""
    printed = [sluice(old), sluice(new)]
    for text in printed:
        if text.startswith(b"refused "):
            return text
    if header(old) != header(new):
        return b"refused 17\n"
    before, after = map(Printed, printed)
    found, waiting = {(0, 0)}, [(0, 0)]
    while waiting:
        state, other = waiting.pop()
        ways = dict(after.ways.get(other, ()))
        for values, following in before.ways[state]:
            pair = following, ways.get(values)
            if pair not in found:
                found.add(pair)
                waiting.append(pair)
    states = sorted(before.finals)
    if sorted(state for state, _ in found) != states or any(
            other is None for _, other in found):
        return b"refused 18\n"
    return "".join(["old new\n"] + ["%d %d\n" % pair
                                    for pair in sorted(found)]).encode()


def replay_fault(rng, old, new, printed):
    """A record whose states, as `replay` prints them for the old sheet and for
    the new one, are not joined by the printed list; or None."""
    pairs = dict(line.split() for line in printed.decode().splitlines()[1:])
    table = Printed(sluice(old))
    lines, state = [" ".join(table.names)], 0
    for _ in range(LETTERS_LONG):
        values, state = rng.choice(table.ways[state])
        lines.append(" ".join(values))
    record = "\n".join(lines).encode()
    states = [[line.split()[1] for line in
               replay(sheet, record).decode().splitlines()[1:]]
              for sheet in (old, new)]
    if [pairs.get(state) for state in states[0]] == states[1]:
        return None
    return record


def sheets_difference(rng, drawn=None):
    """Two drawn sheets on which the routes differ, or None."""
    old, new = drawn or drawn_sheets(rng)
    printed = migrate(old, new)
    if printed != by_lines(old, new):
        return old, new, printed, by_lines(old, new)
    if printed.startswith(b"refused "):
        return None
    fault = replay_fault(rng, old, new, printed)
    return (old, new, fault) if fault else None
