"""The compile: refusals 1 to 10, or the table with its counts."""

from collections import namedtuple

from limits import SITUATIONS
from reading import read
from situations import explore, judge_of
from table import table_of

# What a sheet is, whatever rows are lent.  refusal: 0 or 1 to 7.
# situations: their number, or None if there are more than were counted.
# table: the table, or None if it was not made or there is no solution.
Analysis = namedtuple("Analysis", "refusal sheet situations table")

# "The compile reports the number of states and the number of distinct
# situations."  "A refusal returns its number with states and situations 0."
Compiled = namedtuple("Compiled", "refusal states situations entries finals")


def analyse(text, bound):
    """The analysis of a sheet that counts situations up to the bound."""
    refusal, sheet = read(text)
    if refusal:
        return Analysis(refusal, None, None, None)
    judge = judge_of(sheet)
    graph = explore(judge, bound)
    if graph is None:
        return Analysis(0, sheet, None, None)
    return Analysis(0, sheet, len(graph.situations),
                    table_of(graph, len(judge.letters)))


def compile_refusal(analysis, rows):
    """"The lowest that applies to the whole sheet is given, but 10 comes
    before 9."  Refusal 8: "all lent tables hold 4,096 rows or more, and there
    are more situations."  Refusal 10: "the fewest rows any lent table holds,
    R, is below 4,096, and the situations exceed R"."""
    if analysis.refusal:
        return analysis.refusal
    allowed = min(rows, SITUATIONS)
    if analysis.situations is None or analysis.situations > allowed:
        return 8 if rows >= SITUATIONS else 10
    return 9 if analysis.table is None else 0


def compile_analysed(analysis, rows):
    """The compile of an analysis that counted at least up to the rows, or up
    to 4,096."""
    refusal = compile_refusal(analysis, rows)
    if refusal:
        return Compiled(refusal, 0, 0, [], [])
    table = analysis.table
    return Compiled(0, len(table.entries), analysis.situations, table.entries,
                    [int(final) for final in table.finals])


def compile_sheet(text, rows):
    """The compile of a sheet's bytes with tables of which the smallest holds
    the given rows."""
    return compile_analysed(analyse(text, min(rows, SITUATIONS)), rows)
