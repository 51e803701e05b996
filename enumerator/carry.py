"""New rules without closing the weir (document 02, S-10): for each state of an
old table the state of a new one to go on from."""

from collections import namedtuple

from given import is_fit, row_of
from limits import NO_ENTRY
from streams import described

# list: the lent list after the call.
CarryAnswer = namedtuple("CarryAnswer", "refusal list")


def outcomes(old, new):
    """For each old row the set of what the records that lead to it come to in
    the new table: a state, or None where it cannot be followed.  "The empty
    record counts as one leading to state 0." """
    found = [set() for _ in old.finals]
    found[0].add(0)
    waiting = [(0, 0)]
    while waiting:
        row, state = waiting.pop()
        ways = [None] * new.letters if state is None else row_of(new, state)
        for entry, following in zip(row_of(old, row), ways):
            after = None if following == NO_ENTRY else following
            if entry != NO_ENTRY and after not in found[entry]:
                found[entry].add(after)
                waiting.append((entry, after))
    return found


def carried_states(old, new):
    """The list for all old rows, or None where an old state has no new state:
    "It exists only if every record that leads to the old state leads, in the
    new table, to that one state."  "A row that no record reaches gets 65,535
    and is no ground for refusal." """
    carried = []
    for states in outcomes(old, new):
        if len(states) > 1 or None in states:
            return None
        carried.append(states.pop() if states else NO_ENTRY)
    return carried


def carry(old, new, room):
    """"Turned away: 11 as in S-9; then 17 for streams of another name, place,
    range or kind; then 18 for an old state with no such new state, exactly
    then; then 10 for a list shorter than the old rows. The list is then
    zero." """
    zeros = [0] * room
    if not (is_fit(old) and is_fit(new)):
        return CarryAnswer(11, zeros)
    if described(old.streams) != described(new.streams):
        return CarryAnswer(17, zeros)
    carried = carried_states(old, new)
    if carried is None:
        return CarryAnswer(18, zeros)
    if room < len(carried):
        return CarryAnswer(10, zeros)
    return CarryAnswer(0, carried + zeros[len(carried):])
