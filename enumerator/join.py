"""Two sheets on one river (document 02, S-9): the join of two given tables,
and the program `join`.

    python3 enumerator/join.py SHEET SHEET
"""

from collections import namedtuple
from math import prod

from commands import print_answer
from compiler import Compiled
from given import given_of, is_fit, letters_over, row_of
from limits import LETTERS, NO_ENTRY, SITUATIONS, STREAMS
from reading import Sheet
from replay import opened
from situations import Graph
from sluice import lent_rows, table_lines
from streams import described
from table import table_of

# What two given tables come to, whatever rows are lent.  refusal: 0, 11, 17 or
# 7.  streams: the joined ones.  pairs: their number, or None if there are more
# than were counted.  is_unsettled: what `is_unsettled` says of the pairs.
# table: the table, or None if there is no common solution.
JoinAnalysis = namedtuple("JoinAnalysis", "refusal streams letters pairs is_unsettled table")

# With a refusal all is 0 and empty.
JoinAnswer = namedtuple(
    "JoinAnswer", "refusal states pairs letters streams entries finals")


def joined_streams(left, right):
    """"streams with the same name are one, the first sheet's streams come
    first, then the second's others." """
    names = [stream.name for stream in left]
    return left + [stream for stream in right if stream.name not in names]


def clashes(left, right):
    """Refusal 17: "a shared name with another range or kind"."""
    return any(one.name == other.name and one != other
               for one in left for other in right)


def is_over_bounds(streams):
    """"Bounds on streams and letters give 7" """
    return (len(streams) > STREAMS
            or prod(stream.high - stream.low + 1
                    for stream in streams) > LETTERS)


def cuts_to(streams, own):
    """For each letter over the streams the number of its cut to those of its
    own table, by their names."""
    places = [[stream.name for stream in streams].index(stream.name)
              for stream in own]
    numbers = {letter: number for number, letter
               in enumerate(letters_over(own))}
    return [numbers[tuple(letter[place] for place in places)]
            for letter in letters_over(streams)]


def explore_pairs(left, right, cuts, bound):
    """The graph of the pairs of states that records over the joined letters
    lead to, as far as both tables can be followed, in the order in which they
    are first met; or None if there are more than the bound.  The flag `done`
    is that both states are final."""
    if bound < 1:
        return None
    graph = Graph([(0, 0)], {}, set(), {(0, 0): ()})
    for pair in graph.situations:
        graph.successors[pair] = {}
        if left.finals[pair[0]] and right.finals[pair[1]]:
            graph.done.add(pair)
        rows = row_of(left, pair[0]), row_of(right, pair[1])
        for letter, (one, other) in enumerate(cuts):
            after = rows[0][one], rows[1][other]
            if NO_ENTRY in after:
                continue
            graph.successors[pair][letter] = after
            if after not in graph.records:
                if len(graph.situations) == bound:
                    return None
                graph.records[after] = graph.records[pair] + (letter,)
                graph.situations.append(after)
    return graph


def is_unsettled(graph):
    """A proposal: where "the outcome is free", tables of which a pair with both
    states final leads to a pair without are refused by 11.  No compile gives
    such tables, since a final state leads to final states."""
    return any(there not in graph.done for here in graph.done
               for there in graph.successors[here].values())


def analyse_join(left, right, bound):
    """What two given tables come to, with pairs counted up to the bound."""
    if not (is_fit(left) and is_fit(right)):
        return JoinAnalysis(11, [], 0, None, False, None)
    sides = described(left.streams), described(right.streams)
    if clashes(*sides):
        return JoinAnalysis(17, [], 0, None, False, None)
    streams = joined_streams(*sides)
    if is_over_bounds(streams):
        return JoinAnalysis(7, [], 0, None, False, None)
    cuts = list(zip(*(cuts_to(streams, own) for own in sides)))
    graph = explore_pairs(left, right, cuts, bound)
    if graph is None:
        return JoinAnalysis(0, streams, len(cuts), None, False, None)
    unsettled = is_unsettled(graph)
    return JoinAnalysis(0, streams, len(cuts), len(graph.situations), unsettled,
                 None if unsettled else table_of(graph, len(cuts)))


def join_refusal(analysis, rows):
    """11, 17, 7, then "reachable pairs of states in place of situations give 8
    or 10", then tables that are not settled, and last "9 means no common
    solution"."""
    if analysis.refusal:
        return analysis.refusal
    if analysis.pairs is None or analysis.pairs > min(rows, SITUATIONS):
        return 8 if rows >= SITUATIONS else 10
    if analysis.is_unsettled:
        return 11
    return 9 if analysis.table is None else 0


def join_analysed(analysis, rows):
    """The join with lent tables of which the smallest holds the given rows."""
    refusal = join_refusal(analysis, rows)
    if refusal:
        return JoinAnswer(refusal, 0, 0, 0, [], [], [])
    entries = analysis.table.entries
    return JoinAnswer(0, len(entries), analysis.pairs, analysis.letters,
                      analysis.streams, entries,
                      [int(final) for final in analysis.table.finals])


def join(left, right, rows):
    """The join of two given tables with lent tables of which the smallest
    holds the given rows."""
    return join_analysed(analyse_join(left, right, min(rows, SITUATIONS)), rows)


# ---- the program

def sheet_over(streams):
    """A sheet without constraints that has the streams."""
    names, lows, highs, kinds = map(list, zip(*streams))
    return Sheet(names, lows, highs, kinds, [])


def join_lines(first, second):
    """`sluice`'s lines for the joined table.  Each sheet is compiled in the
    rows that `sluice` lends for its letters, and the join has those that it
    lends for the joined letters.  The first sheet's refusal comes first, then
    the second's, then the join's own."""
    tables = []
    for text in (first, second):
        refusal, sheet, compiled, _ = opened(text, None)
        if refusal:
            return [["refused", refusal]]
        tables.append(given_of(sheet, compiled))
    analysis = analyse_join(*tables, lent_rows(1))
    answer = join_analysed(analysis, lent_rows(max(analysis.letters, 1)))
    if answer.refusal:
        return [["refused", answer.refusal]]
    return table_lines(sheet_over(answer.streams),
                       Compiled(0, answer.states, answer.pairs, answer.entries,
                                answer.finals))


def join_sheets(first, second):
    """The bytes that `join` prints for the bytes of two sheets."""
    return "".join(" ".join(map(str, line)) + "\n"
                   for line in join_lines(first, second)).encode()


if __name__ == "__main__":
    print_answer(__doc__, join_sheets, ("first", "second"))
