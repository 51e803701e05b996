"""Tokens and trees of document 01, "The sheet".

The grammar is written as a relation: each function gives the list of all
trees that a list of tokens has.  The lists never hold more than one tree.
"""

import re
import sys
from collections import namedtuple

# A sheet may nest 1,021 `not`, and every function over trees recurses.
sys.setrecursionlimit(20000)
# An integer may have as many digits as a sheet has bytes.
if hasattr(sys, "set_int_max_str_digits"):
    sys.set_int_max_str_digits(0)

# The place of a token is its line number and its number within the line.
Token = namedtuple("Token", "text place")

Integer = namedtuple("Integer", "value")
Name = namedtuple("Name", "text")
Unary = namedtuple("Unary", "word place operand")
Binary = namedtuple("Binary", "word place left right")
Conditional = namedtuple("Conditional", "condition when_true when_false")
Constraint = namedtuple("Constraint", "sign place left right")

COMPARISON_SIGNS = ("<", "<=", "==", ">=", ">", "!=")
SIGNS = COMPARISON_SIGNS + ("->", "until")
ARITHMETIC = ("+", "-", "*", "/", "%")
COMPARISON_WORDS = ("lt", "le", "eq", "ge", "gt", "ne")
OPERATOR_WORDS = COMPARISON_WORDS + ("and", "or", "fby")
OPERATORS = ARITHMETIC + OPERATOR_WORDS
PREFIXES = ("first", "next", "not")
# What a sheet of release 2 means by `/` and `%` (document 02, S-11): two more
# operators, which no token spells.
ROUNDED_DOWN = {"/": "/ rounded down", "%": "% rounded down"}
# "Reserved words: all operator words, `if then else first next not until`";
# of `read` and `set` document 02 (S-6): "Both words are reserved now".
CONSTRAINT_WORDS = (OPERATOR_WORDS + ("if", "then", "else") + PREFIXES
                    + ("until",))
STREAM_KINDS = ("read", "set")
RESERVED = CONSTRAINT_WORDS + STREAM_KINDS


def has_name_form(text):
    """"A name is 1 to 8 letters a to z." """
    return re.fullmatch("[a-z]{1,8}", text) is not None


def has_integer_form(text):
    """"An integer is digits with an optional `-` before them; a leading zero
    stands only in `0`, and `-0` is no integer." """
    return re.fullmatch("0|-?[1-9][0-9]*", text) is not None


def split_lines(sheet):
    """"Lines end with byte 10; the last may lack it." """
    lines = sheet.split(b"\n")
    if lines[-1] == b"":
        lines.pop()
    return lines


def split_tokens(line, line_number):
    """"Tokens are brackets, each by itself, and the longest runs of bytes 33
    to 126 without brackets; spaces part tokens." """
    texts = re.findall(r"[()]|[!-'*-~]+", line.decode("latin-1"))
    return [Token(text, (line_number, number))
            for number, text in enumerate(texts)]


def bracket_levels(tokens):
    """For each token, how many brackets are open just before it."""
    levels = []
    level = 0
    for token in tokens:
        levels.append(level)
        if token.text == "(":
            level += 1
        elif token.text == ")":
            level -= 1
    return levels


def outer_places(tokens, words):
    """Indices of the tokens among the words that stand outside all brackets.
    A split elsewhere would leave a side with unequal brackets."""
    return [index for index, level in enumerate(bracket_levels(tokens))
            if level == 0 and tokens[index].text in words]


def partner_of_first(tokens):
    """The index of the bracket that closes the bracket at index 0, or None."""
    level = 0
    for index, token in enumerate(tokens):
        level += {"(": 1, ")": -1}.get(token.text, 0)
        if level == 0:
            return index
    return None


def atom_readings(token):
    if has_integer_form(token.text):
        return [Integer(int(token.text))]
    if has_name_form(token.text) and token.text not in RESERVED:
        return [Name(token.text)]
    return []


def part_readings(tokens):
    """"A part is an integer, a name, an expression in brackets, or `first`,
    `next` or `not` before a part." """
    if len(tokens) == 1:
        return atom_readings(tokens[0])
    if not tokens:
        return []
    head = tokens[0]
    if head.text in PREFIXES:
        return [Unary(head.text, head.place, operand)
                for operand in part_readings(tokens[1:])]
    if head.text == "(" and partner_of_first(tokens) == len(tokens) - 1:
        return expression_readings(tokens[1:-1])
    return []


def binary_readings(tokens):
    """"two parts with an operator between them" """
    return [Binary(tokens[split].text, tokens[split].place, left, right)
            for split in outer_places(tokens, OPERATORS)
            for left in part_readings(tokens[:split])
            for right in part_readings(tokens[split + 1:])]


def conditional_readings(tokens):
    """"`if` part `then` part `else` part" """
    if not tokens or tokens[0].text != "if":
        return []
    return [Conditional(condition, when_true, when_false)
            for middle in outer_places(tokens, ("then",))
            for condition in part_readings(tokens[1:middle])
            for last in outer_places(tokens, ("else",)) if last > middle
            for when_true in part_readings(tokens[middle + 1:last])
            for when_false in part_readings(tokens[last + 1:])]


def expression_readings(tokens):
    """"An expression is a part, or two parts with an operator between them,
    or `if` part `then` part `else` part." """
    readings = (part_readings(tokens) + binary_readings(tokens)
                + conditional_readings(tokens))
    assert len(readings) <= 1, "the grammar gives two trees"
    return readings


def constraint_readings(tokens):
    """"A constraint is two expressions with one of
    `< <= == >= > != -> until` between them." """
    readings = [Constraint(tokens[split].text, tokens[split].place, left, right)
                for split in outer_places(tokens, SIGNS)
                for left in expression_readings(tokens[:split])
                for right in expression_readings(tokens[split + 1:])]
    assert len(readings) <= 1, "a line has two splits"
    return readings


def operands(expression):
    """The immediate subexpressions, from left to right."""
    kind = type(expression)
    if kind is Unary:
        return [expression.operand]
    if kind is Binary:
        return [expression.left, expression.right]
    if kind is Conditional:
        return list(expression)
    return []


def subexpressions(expression):
    """The expression itself and every expression inside it."""
    found = [expression]
    for operand in operands(expression):
        found.extend(subexpressions(operand))
    return found


def sides(constraints):
    """The whole sides of the constraints, in sheet order."""
    return [side for constraint in constraints
            for side in (constraint.left, constraint.right)]


def all_subexpressions(constraints):
    return [expression for side in sides(constraints)
            for expression in subexpressions(side)]


def rounded_down(expression):
    """The expression with the quotient and the remainder rounded down wherever
    it has those of release 1."""
    kind = type(expression)
    if kind is Unary:
        return expression._replace(operand=rounded_down(expression.operand))
    if kind is Binary:
        return expression._replace(
            word=ROUNDED_DOWN.get(expression.word, expression.word),
            left=rounded_down(expression.left),
            right=rounded_down(expression.right))
    if kind is Conditional:
        return Conditional(*map(rounded_down, expression))
    return expression


def is_word(expression, word):
    """Whether the expression is formed by the given operator word."""
    return type(expression) in (Unary, Binary) and expression.word == word


def spelled(word):
    """The token that stands for an operator in a sheet of its release."""
    return {down: token for token, down in ROUNDED_DOWN.items()}.get(word, word)


def expression_text(expression):
    """A text that reads as the expression in a sheet of its release, with every
    compound bracketed."""
    kind = type(expression)
    if kind is Integer:
        return str(expression.value)
    if kind is Name:
        return expression.text
    texts = [expression_text(operand) for operand in operands(expression)]
    if kind is Unary:
        return "( %s %s )" % (expression.word, texts[0])
    if kind is Binary:
        return "( %s %s %s )" % (texts[0], spelled(expression.word), texts[1])
    return "( if %s then %s else %s )" % tuple(texts)


def constraint_text(constraint):
    return "%s %s %s" % (expression_text(constraint.left), constraint.sign,
                         expression_text(constraint.right))
