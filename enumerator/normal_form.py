"""The normal form (000, section 3.1, with the numbering of document 01).

An added stream is a name `#0`, `#1`, ...; no stream of a sheet has such a
name, so trees with added streams are trees like any others.
"""

from collections import namedtuple

from grammar import (Binary, Conditional, Constraint, Name, Unary,
                     all_subexpressions, constraint_text, is_word)
from intervals import interval, untils
from reading import ranges, read


class NormalForm(namedtuple("NormalForm", "refusal rewritten added_entries "
                                          "stands_for added")):
    """rewritten: the sheet's constraints, which hold as in a sheet.
    added_entries: those in which "none equals none and no number" (document
    02, S-5).  stands_for: for each added stream the expression of the sheet
    that it stands for.  added: the range of each added stream's numbers; it
    "may carry none" beside them."""

    @property
    def entries(self):
        return self.rewritten + self.added_entries


def refused(refusal):
    return NormalForm(refusal, [], [], [], [])


def temporal_operators(sheet):
    """Every `next`, `fby` and `until`, "numbered as their operators stand in
    the sheet": by the place of the operator's own word."""
    found = [expression for expression in all_subexpressions(sheet.constraints)
             if is_word(expression, "next") or is_word(expression, "fby")]
    found += untils(sheet.constraints)
    return sorted(found, key=lambda operator: operator.place)


def represented(operator):
    """What the added streams x1, x2 (and x3) of 000 stand for."""
    if type(operator) is Constraint:
        return [operator.left, operator.right]
    if operator.word == "next":
        return [operator, operator.operand]
    return [operator, operator.left, operator.right]


def rewrite(expression, streams):
    """The expression with each `next` and `fby` replaced by its x1; streams
    maps the place of an operator to its added streams."""
    kind = type(expression)
    if is_word(expression, "next") or is_word(expression, "fby"):
        return streams[expression.place][0]
    if kind is Unary:
        return expression._replace(operand=rewrite(expression.operand, streams))
    if kind is Binary:
        return expression._replace(left=rewrite(expression.left, streams),
                                   right=rewrite(expression.right, streams))
    if kind is Conditional:
        return Conditional(*(rewrite(part, streams) for part in expression))
    return expression


def rewrite_constraint(constraint, streams):
    """A rewritten constraint; an `until` line becomes `x1 until x2`."""
    if constraint.sign == "until":
        left, right = streams[constraint.place]
    else:
        left = rewrite(constraint.left, streams)
        right = rewrite(constraint.right, streams)
    return constraint._replace(left=left, right=right)


def entries_of(operator, streams):
    """The entries that 000 adds for one operator, in its order."""
    place = operator.place
    own = streams[place]

    def equals(left, right):
        return Constraint("==", place, left, right)

    def defined(stream, expression):
        return equals(stream, rewrite(expression, streams))

    if type(operator) is Constraint:
        return [defined(own[0], operator.left), defined(own[1], operator.right)]
    if operator.word == "next":
        return [defined(own[1], operator.operand),
                equals(own[0], Unary("next", place, own[1]))]
    return [defined(own[1], operator.left), defined(own[2], operator.right),
            equals(Unary("first", place, own[0]), Unary("first", place, own[1])),
            equals(own[2], Unary("next", place, own[0]))]


def normal_form_of(sheet):
    """The normal form of an accepted sheet."""
    operators = temporal_operators(sheet)
    streams = {}
    stands_for = []
    for operator in operators:
        expressions = represented(operator)
        streams[operator.place] = [Name("#%d" % (len(stands_for) + index))
                                   for index in range(len(expressions))]
        stands_for += expressions
    rewritten = [rewrite_constraint(constraint, streams)
                 for constraint in sheet.constraints]
    entries = [entry for operator in operators
               for entry in entries_of(operator, streams)]
    added = [interval(expression, ranges(sheet)) for expression in stands_for]
    normal = NormalForm(0, rewritten, entries, stands_for, added)
    assert len(normal.entries) == entry_count(sheet, operators)
    return normal


def entry_count(sheet, operators):
    """"So it has constraints + 2 × nexts + 4 × fbys + 2 × untils entries." """
    return len(sheet.constraints) + sum(
        4 if is_word(operator, "fby") else 2 for operator in operators)


def normal_form(text, list_length):
    """The normal form of a sheet's bytes into a list of the given length:
    "The normal form can meet 1 to 7 and 10, and leaves its list zero." """
    refusal, sheet = read(text)
    if refusal:
        return refused(refusal)
    result = normal_form_of(sheet)
    if list_length < len(result.entries):
        return refused(10)
    return result


def entry_texts(entries):
    return [constraint_text(entry) for entry in entries]
