"""The records of the normal form's entries, as numbers (crates/normal,
specs/Encoded): kind, relation, stream_kind, replaces, left, left_added,
left_begin, left_end, right, right_added, right_begin, right_end, low, high.
`decoded` says what a record says, from the sheet's text alone, in the text of
the vectors."""

import re
from collections import namedtuple

from grammar import (OPERATORS, Binary, Conditional, Constraint, Name, Unary,
                     constraint_text, expression_readings, is_word, operands,
                     outer_places, partner_of_first)
from intervals import interval
from reading import kinds_and_constraints, ranges, release_and_rest

SIGNS = ["<", "<=", "==", ">=", ">", "!=", "->", "until"]
EQUAL = SIGNS.index("==")
# The kind of an added stream, which the record of an entry has: "an added one
# is `set`" (document 02, S-6).
SET = 0

# A token with the places of its first byte and behind its last in the sheet.
Placed = namedtuple("Placed", "text place begin end")


def placed_tokens(text, start, end):
    """The tokens of the bytes from one place to before another."""
    found = re.finditer(r"[()]|[!-'*-~]+", text[start:end].decode("latin-1"))
    return [Placed(token.group(), None, start + token.start(), start + token.end())
            for token in found]


def constraint_tokens(text):
    """The tokens of each constraint line."""
    lines, start = [], 0
    for line in text.split(b"\n"):
        lines.append(placed_tokens(text, start, start + len(line)))
        start += len(line) + 1
    _, further = kinds_and_constraints(release_and_rest(lines)[1])
    return [tokens for tokens in further if tokens]


def part_tokens(expression, tokens):
    """The tokens of an expression's operands, in order."""
    if type(expression) is Unary:
        return [tokens[1:]]
    if type(expression) is Binary:
        split = outer_places(tokens, OPERATORS)[0]
        return [tokens[:split], tokens[split + 1:]]
    if type(expression) is Conditional:
        middle = outer_places(tokens, ("then",))[0]
        last = outer_places(tokens, ("else",))[-1]
        return [tokens[1:middle], tokens[middle + 1:last], tokens[last + 1:]]
    return []


def added_count(expression):
    """How many streams rewriting an expression adds."""
    own = 2 if is_word(expression, "next") else 3 if is_word(expression, "fby") else 0
    return own + sum(map(added_count, operands(expression)))


class Rows:
    """The rows of one accepted sheet."""

    def __init__(self, text, sheet):
        self.text = text
        self.sheet = sheet
        self.own = len(sheet.names)
        self.ranges = ranges(sheet)
        self.spans = {}
        for constraint, tokens in zip(sheet.constraints, constraint_tokens(text)):
            split = outer_places(tokens, SIGNS)[0]
            self.store(constraint.left, tokens[:split])
            self.store(constraint.right, tokens[split + 1:])

    def store(self, expression, tokens):
        """Brackets around an expression belong to no span of their own."""
        while tokens[0].text == "(" and partner_of_first(tokens) == len(tokens) - 1:
            tokens = tokens[1:-1]
        self.spans[id(expression)] = tokens[0].begin, tokens[-1].end
        for operand, inner in zip(operands(expression), part_tokens(expression, tokens)):
            self.store(operand, inner)

    def span(self, expression):
        return self.spans[id(expression)]

    def row(self, kind, relation, left, right, source, replaces=0):
        return (kind, relation, SET, replaces, left, 0, *self.span(source), right, 0, 0, 0,
                *interval(source, self.ranges))

    def equation(self, stream, expression, added):
        return (3, EQUAL, SET, 0, stream, 0, *self.span(expression), 0, added, *self.span(expression),
                *interval(expression, self.ranges))

    def added(self, expression, number):
        """The rows that an expression adds with streams from a number on, and
        the number behind its streams."""
        if is_word(expression, "next"):
            part = expression.operand
            own = [self.equation(number + 1, part, number + 2),
                   self.row(4, EQUAL, number, number + 1, expression, 1)]
            rows, behind = self.added(part, number + 2)
            return own + rows, behind
        if is_word(expression, "fby"):
            left, right = expression.left, expression.right
            before, stream = self.added(left, number)
            own = [self.equation(stream + 1, left, number),
                   self.equation(stream + 2, right, stream + 3),
                   self.row(5, EQUAL, stream, stream + 1, expression, 1),
                   self.row(4, EQUAL, stream + 2, stream, right)]
            rows, behind = self.added(right, stream + 3)
            return before + own + rows, behind
        rows = []
        for part in operands(expression):
            more, number = self.added(part, number)
            rows += more
        return rows, number

    def line(self, constraint, number):
        """A constraint's own row, the rows that it adds, and the number behind
        its streams."""
        left, right = constraint.left, constraint.right
        before, stream = self.added(left, number)
        if constraint.sign != "until":
            rows, behind = self.added(right, stream)
            own = (1, SIGNS.index(constraint.sign), 0, 0, 0, number, *self.span(left),
                   0, stream, *self.span(right), 0, 0)
            return own, before + rows, behind
        rows, behind = self.added(right, stream + 2)
        own = self.row(2, SIGNS.index("until"), stream, stream + 1, left)
        equations = [self.equation(stream, left, number),
                     self.equation(stream + 1, right, stream + 2)]
        return own, before + equations + rows, behind

    def all(self):
        """The rows in order, and the number of added streams."""
        first, later, number = [], [], self.own
        for constraint in self.sheet.constraints:
            own, rows, number = self.line(constraint, number)
            first.append(own)
            later += rows
        return first + later, number - self.own

    # ---- what a row says

    def stream(self, number):
        return Name("#%d" % (number - self.own))

    def rewritten(self, expression, number):
        """The rewritten expression, and the number behind its streams."""
        if is_word(expression, "next") or is_word(expression, "fby"):
            before = 0 if expression.word == "next" else added_count(expression.left)
            return self.stream(number + before), number + added_count(expression)
        parts = []
        for part in operands(expression):
            tree, number = self.rewritten(part, number)
            parts.append(tree)
        kind = type(expression)
        if kind is Unary:
            return expression._replace(operand=parts[0]), number
        if kind is Binary:
            return expression._replace(left=parts[0], right=parts[1]), number
        if kind is Conditional:
            return Conditional(*parts), number
        return expression, number

    def side(self, added, begin, end):
        """The rewritten expression that the text between two places is read
        as; where it adds streams, they are numbered from `added` on."""
        tree, = expression_readings(placed_tokens(self.text, begin, end))
        return self.rewritten(tree, added)[0]

    def decoded(self, row):
        kind, relation, _, _, left, left_added, *left_span, right, right_added, begin, end = row[:12]
        sign = SIGNS[relation]
        if kind == 1:
            sides = self.side(left_added, *left_span), self.side(right_added, begin, end)
        elif kind == 3:
            sides = self.stream(left), self.side(right_added, begin, end)
        else:
            sides = self.stream(left), self.stream(right)
        if kind == 4:
            sides = sides[0], Unary("next", None, sides[1])
        if kind == 5:
            sides = tuple(Unary("first", None, side) for side in sides)
        return constraint_text(Constraint(sign, None, *sides))
