"""Where a constraint line leaves the form of a sheet: its first token that no
line of the form goes on with, and how to mend it.

The grammar is read from left to right here, and as a relation in `grammar.py`.
"""

import re
from collections import namedtuple

from grammar import (OPERATORS, PREFIXES, RESERVED, SIGNS, STREAM_KINDS,
                     has_integer_form, has_name_form)

# line: its number from 1, or None for the whole sheet.  token: its number
# from 0 within the line, or None.  what: what is wrong.  mend: how to mend it.
Fault = namedtuple("Fault", "line token what mend")

EMPTY_LINE = ("a line without tokens",
              "Take the line out; a sheet has no empty lines and no comments.")
PART = ("A part is an integer, a name, an expression in brackets, or `first`, "
        "`next` or `not` before a part.")
RULE = ("A rule is two expressions with one of `%s` between them."
        % " ".join(SIGNS))
SIGN_WORDS = {"<": "lt", "<=": "le", "==": "eq", ">=": "ge", ">": "gt",
              "!=": "ne"}
# Signs of other languages.
FOREIGN = {
    "=": "Write `==` between the sides of a rule, `eq` within an expression.",
    "===": "Write `==` between the sides of a rule, `eq` within an expression.",
    "=<": "Write `<=`.", "=>": "Write `->` for `implies`, `>=` for `at least`.",
    "<>": "Write `!=` between the sides of a rule, `ne` within an expression.",
    "!": "Write `not`.", "~": "Write `not`.", "&": "Write `and`.",
    "&&": "Write `and`.", "|": "Write `or`.", "||": "Write `or`.",
    "mod": "Write `%`.", "<-": "Turn the rule round: `b -> a`.",
    "<->": "Write two rules, one with `->` each way.",
    "[": "Brackets are `(` and `)`.", "]": "Brackets are `(` and `)`.",
    "{": "Brackets are `(` and `)`.", "}": "Brackets are `(` and `)`.",
    "#": "There are no comments.", "//": "There are no comments.",
    ";": "One rule a line, without a sign at its end.",
    ",": "Only spaces part tokens.",
}


class Stop(Exception):
    """The line cannot go on at a token; its number, what and mend."""


def odd_integer(text):
    """What is wrong with a token that should be an integer."""
    what = "no integer"
    if re.fullmatch(r"\+[0-9]+", text):
        return what, "Write it without `+`."
    if re.fullmatch(r"-?0[0-9]*", text):
        return what, "Write it without leading zeros; zero is `0`."
    if re.fullmatch(r"-?[0-9]+[.,][0-9]+", text):
        return what, ("Whole numbers only, without points and commas: use "
                      "smaller units.")
    if text in "()":
        return what, "No brackets here: integers with spaces between them."
    return what, "An integer is digits with an optional `-` before them."


def odd_name(text):
    """What is wrong with a token that should be a name."""
    what = "no name"
    if re.fullmatch("[a-z]{9,}", text):
        return what, "A name has at most 8 letters."
    if re.search("[A-Z]", text):
        return what, "A name has small letters a to z only."
    if re.fullmatch("[a-z0-9_-]+", text) and re.search("[a-z]", text):
        return what, ("A name has letters a to z only: no digits, no `_`, "
                      "no `-`.")
    return what, "A name is 1 to 8 letters a to z."


def odd_token(text):
    """The same for a token that is nothing a rule could have."""
    what = "no integer, name, operator or sign"
    if text in FOREIGN:
        return what, FOREIGN[text]
    if re.fullmatch(r"[+-]?[0-9][0-9.,]*", text):
        return odd_integer(text)
    if re.search("[A-Za-z0-9_]", text) and re.search("[-+*/%<>=!]", text):
        return what, ("It is one token: put spaces round names, integers and "
                      "signs. Only brackets need none.")
    if re.search("[A-Za-z]", text):
        return odd_name(text)
    return what, PART


def is_known(text):
    return (text in OPERATORS or text in SIGNS or text in RESERVED
            or text in "()" or has_name_form(text) or has_integer_form(text))


class Line:
    """The tokens of a constraint line, read from left to right."""

    def __init__(self, texts):
        self.texts, self.place = texts, 0
        # The places of the brackets that are open.
        self.open = []
        self.sign = None

    def here(self):
        return self.texts[self.place] if self.place < len(self.texts) else None

    def stop(self, what, mend):
        raise Stop(self.place, what, mend)

    def take(self):
        self.place += 1

    def part(self):
        text = self.here()
        while text in PREFIXES:
            self.take()
            text = self.here()
        if text == "(":
            self.open.append(self.place)
            self.take()
            self.expression()
            if self.here() != ")":
                self.no_way_on()
            self.open.pop()
            self.take()
        elif text is not None and (has_integer_form(text) or has_name_form(
                text) and text not in RESERVED):
            self.take()
        else:
            self.no_part(text)

    def expression(self):
        if self.here() == "if":
            for word in ("if", "then", "else"):
                if self.here() != word:
                    self.no_word(word)
                self.take()
                self.part()
            return
        self.part()
        if self.here() in OPERATORS:
            self.take()
            self.part()

    def constraint(self):
        self.expression()
        if self.here() not in SIGNS:
            self.no_way_on()
        self.sign = self.place
        self.take()
        self.expression()
        if self.here() is not None:
            self.no_way_on()

    def no_part(self, text):
        """A part is missing."""
        if text is None:
            self.stop("the line ends where a part should stand", PART)
        if text == "if":
            self.stop("`if` where a part should stand",
                      "Put the `if` with its `then` and `else` in brackets.")
        if text == "-":
            self.stop("a part is missing before the sign `-`",
                      "Write `0 - x` for the negative of `x`; a negative "
                      "integer has no space, as in `-3`.")
        if text in STREAM_KINDS:
            self.stop("`read` or `set` in a rule",
                      "The line of kinds stands behind the highest values and "
                      "nowhere else; as names the two are reserved.")
        if text in SIGNS and self.sign is not None and not self.open:
            self.stop("a second sign in one rule", RULE)
        if text == ")" or text in SIGNS or text in OPERATORS:
            self.stop("a part is missing before `%s`" % text, PART)
        if text in RESERVED:
            self.stop("the reserved word `%s` where a part should stand" % text,
                      PART)
        self.stop(*odd_token(text))

    def no_word(self, word):
        """`then` or `else` is missing."""
        text = self.here()
        if text in OPERATORS:
            self.stop("an operator in a part of an `if`",
                      "Put the condition and each branch in brackets where "
                      "it is more than a name or an integer.")
        if text is not None and not is_known(text):
            self.stop(*odd_token(text))
        self.stop("`%s` is missing" % word, "An `if` has the form "
                  "`if` part `then` part `else` part.")

    def no_way_on(self):
        """An expression ended and the token does not go on from it."""
        text = self.here()
        if text is None:
            self.no_end()
        if text == ")":
            self.stop("a `)` that closes no bracket",
                      "Take it out, or open the bracket before.")
        if text in OPERATORS:
            self.stop("a second operator in one expression",
                      "Nothing binds stronger than anything else: put "
                      "brackets round one of the two, as in `( a %s b ) %s c`."
                      % (text, text))
        if text in SIGNS:
            self.odd_sign(text)
        if not is_known(text):
            self.stop(*odd_token(text))
        if text in ("then", "else"):
            self.stop("`%s` without its `if`" % text,
                      "An `if` has the form `if` part `then` part `else` part.")
        if text in STREAM_KINDS:
            self.no_part(text)
        self.stop("two parts without an operator between them",
                  "Put one of `%s` between them." % " ".join(OPERATORS))

    def no_end(self):
        if self.open:
            self.place = self.open[-1]
            self.stop("this bracket is not closed", "Close it with `)`.")
        inside = [sign for sign in self.texts if sign in SIGNS]
        if inside:
            self.stop("the rule has no sign outside brackets",
                      "Take the brackets round the whole rule out. " + RULE)
        self.stop("the line ends without a sign", RULE)

    def odd_sign(self, text):
        """A sign where none may stand."""
        if not self.open:
            self.stop("a second sign in one rule",
                      "Write two rules; within an expression, in brackets, "
                      "comparisons are words: `lt le eq ge gt ne`.")
        opened = "or close the bracket of token %d" % (self.open[-1] + 1)
        if text in SIGN_WORDS:
            self.stop("a sign within brackets", "Write `%s`, %s."
                      % (SIGN_WORDS[text], opened))
        if text == "->":
            self.stop("a sign within brackets",
                      "Write `( not a ) or b` for it, %s." % opened)
        self.stop("`until` within brackets",
                  "It stands between the sides of a rule only; %s." % opened)


def line_fault(number, tokens):
    """The first fault of form of a constraint line, or None."""
    if not tokens:
        return Fault(number, None, *EMPTY_LINE)
    line = Line([token.text for token in tokens])
    try:
        line.constraint()
    except Stop as stop:
        place, what, mend = stop.args
        return Fault(number, place if place < len(tokens) else None, what, mend)
    return None
