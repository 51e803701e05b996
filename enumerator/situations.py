"""Letters, lawful records and situations (document 01, "Letters, situations,
table"), and the graph of all situations.

A letter is a tuple with one value per stream; a record is a tuple of letters.
"""

import itertools
from collections import deque, namedtuple

from intervals import deepest_back, deepest_reach, firsts, untils
from meaning import BROKEN, DONE, PENDING, holds_at, until_at, until_status, value

# "Its situation is the whole record if n ≤ D+B; else its last D+B letters,
# the value of each `first`, and for each `until` done or pending."  They are
# two kinds because "a whole record never equals a cut one".
Whole = namedtuple("Whole", "kind record")
Cut = namedtuple("Cut", "kind letters firsts untils")

# situations: in the order in which they are met.
# successors: for each situation, by letter number, the situation after it.
# done: the situations in which every `until` is done.
# records: for each situation one record that has it.
Graph = namedtuple("Graph", "situations successors done records")

# A sheet with what the records are judged by.  pointwise holds the
# comparisons and implications.
Judge = namedtuple("Judge", "names letters pointwise untils firsts ahead behind")


def letters(sheet):
    """"Its number counts with the last stream fastest, values rising from
    the lowest, from 0." """
    values = [range(low, high + 1)
              for low, high in zip(sheet.lows, sheet.highs)]
    return list(itertools.product(*values))


def judge_of(sheet):
    constraints = sheet.constraints
    return Judge(
        names=sheet.names, letters=letters(sheet),
        pointwise=[constraint for constraint in constraints
                   if constraint.sign != "until"],
        untils=untils(constraints), firsts=firsts(constraints),
        ahead=deepest_reach(constraints), behind=deepest_back(constraints))


def record_valuation(names, record):
    columns = {name: index for index, name in enumerate(names)}
    return lambda name, time: record[time][columns[name]]


def judged_times(judge, record):
    """How many times are judged: "at times 0 to n−1−D"."""
    return max(0, len(record) - judge.ahead)


def statuses(judge, record):
    """The status of each `until` over all judged times."""
    valuation = record_valuation(judge.names, record)
    times = judged_times(judge, record)
    return tuple(until_status(constraint, valuation, times)
                 for constraint in judge.untils)


def is_lawful(judge, record):
    """"A record of n letters is lawful if, judged at times 0 to n−1−D, no
    comparison or implication fails and no `until` meets 0 on both sides
    before it is done." """
    valuation = record_valuation(judge.names, record)
    times = range(judged_times(judge, record))
    return (all(holds_at(constraint, valuation, time)
                for constraint in judge.pointwise for time in times)
            and BROKEN not in statuses(judge, record))


def situation_with(judge, record, until_statuses):
    window = judge.ahead + judge.behind
    if len(record) <= window:
        return Whole("whole", record)
    valuation = record_valuation(judge.names, record)
    return Cut("cut", record[len(record) - window:],
               tuple(value(expression, valuation, 0)
                     for expression in judge.firsts),
               until_statuses)


def situation(judge, record):
    """The situation of a lawful record."""
    return situation_with(judge, record, statuses(judge, record))


def statuses_after(judge, record, before):
    """The statuses of a record whose last letter was added to a lawful record
    with the statuses before, or None if the record is not lawful.  Only the
    newest judged time is looked at: the earlier ones were judged before."""
    time = len(record) - 1 - judge.ahead
    if time < 0:
        return before
    valuation = record_valuation(judge.names, record)
    if not all(holds_at(constraint, valuation, time)
               for constraint in judge.pointwise):
        return None
    after = tuple(DONE if status == DONE else until_at(constraint, valuation, time)
                  for constraint, status in zip(judge.untils, before))
    return None if BROKEN in after else after


def explore(judge, bound):
    """The graph of the situations of all lawful records, or None if there
    are more situations than the bound."""
    start = (PENDING,) * len(judge.untils)
    empty = situation_with(judge, (), start)
    graph = Graph([empty], {}, set(), {empty: ()})
    status_of = {empty: start}
    waiting = deque([empty])
    if bound < 1:
        return None
    while waiting:
        here = waiting.popleft()
        graph.successors[here] = {}
        if all(status == DONE for status in status_of[here]):
            graph.done.add(here)
        for number, letter in enumerate(judge.letters):
            record = graph.records[here] + (letter,)
            after = statuses_after(judge, record, status_of[here])
            if after is None:
                continue
            there = situation_with(judge, record, after)
            graph.successors[here][number] = there
            if there not in status_of:
                if len(status_of) == bound:
                    return None
                status_of[there] = after
                graph.records[there] = record
                graph.situations.append(there)
                waiting.append(there)
    return graph
