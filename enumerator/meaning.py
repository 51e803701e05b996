"""Document 01, "Meaning at time i (from 0)", with document 02, S-5: a quotient
or remainder with divisor 0 has no value; and S-11: in release 2 a quotient is
rounded down.

A valuation is a function that gives the value of a named stream at a time.
Python's None is document 02's "none".
"""

import operator

from grammar import (COMPARISON_SIGNS, ROUNDED_DOWN, Conditional, Integer,
                     Name)

COMPARE = {"lt": operator.lt, "le": operator.le, "eq": operator.eq,
           "ge": operator.ge, "gt": operator.gt, "ne": operator.ne}
COMPARE_SIGN = dict(zip(COMPARISON_SIGNS,
                        (operator.lt, operator.le, operator.eq,
                         operator.ge, operator.gt, operator.ne)))


def quotient(dividend, divisor):
    """"A quotient is cut toward zero"; with divisor 0 it "has no value"."""
    if divisor == 0:
        return None
    magnitude = abs(dividend) // abs(divisor)
    return magnitude if (dividend < 0) == (divisor < 0) else -magnitude


def remainder(dividend, divisor):
    """"the remainder has the dividend's sign"; with divisor 0 it "has no
    value"."""
    if divisor == 0:
        return None
    return dividend - divisor * quotient(dividend, divisor)


def quotient_down(dividend, divisor):
    """"quotients rounded down": "−7 / 2 is −4".  It is the quotient cut toward
    zero, less 1 where that lies above the exact quotient."""
    if divisor == 0:
        return None
    cut = quotient(dividend, divisor)
    beyond = cut * divisor - dividend
    return cut - 1 if beyond * divisor > 0 else cut


def remainder_down(dividend, divisor):
    """"−7 % 2 is 1, the remainder having the divisor's sign"."""
    if divisor == 0:
        return None
    return dividend - divisor * quotient_down(dividend, divisor)


POINTWISE = {
    "+": operator.add, "-": operator.sub, "*": operator.mul,
    "/": quotient, "%": remainder,
    ROUNDED_DOWN["/"]: quotient_down, ROUNDED_DOWN["%"]: remainder_down,
    "and": lambda a, b: int(a != 0 and b != 0),
    "or": lambda a, b: int(a != 0 or b != 0),
    **{word: (lambda a, b, holds=holds: int(holds(a, b)))
       for word, holds in COMPARE.items()},
}


def applied(function, *parts):
    """"Any operator with a part that has none at the time it is read gives
    none": also `and` and `or`, which read both parts."""
    return None if None in parts else function(*parts)


def is_true(result):
    """"any value but 0 is true", and none is no value."""
    return result is not None and result != 0


def value(expression, valuation, time):
    """The value of the expression at the time, or None if it has none."""
    kind = type(expression)
    if kind is Integer:
        return expression.value
    if kind is Name:
        return valuation(expression.text, time)
    if kind is Conditional:
        # "`if` needs only its condition and chosen branch."
        condition = value(expression.condition, valuation, time)
        if condition is None:
            return None
        branch = expression.when_true if condition else expression.when_false
        return value(branch, valuation, time)
    word = expression.word
    # "`first e` is e at 0. `next e` is e at i+1."  Other times of e are not
    # read.
    if word == "first":
        return value(expression.operand, valuation, 0)
    if word == "next":
        return value(expression.operand, valuation, time + 1)
    if word == "not":
        return applied(lambda part: int(part == 0),
                       value(expression.operand, valuation, time))
    # "`a fby b` is a at 0, and b at i−1 later."  One side is read at a time.
    if word == "fby":
        if time == 0:
            return value(expression.left, valuation, 0)
        return value(expression.right, valuation, time - 1)
    return applied(POINTWISE[word], value(expression.left, valuation, time),
                   value(expression.right, valuation, time))


def holds_at(constraint, valuation, time):
    """Whether a comparison or implication holds at the time: "A comparison or
    implication with none on either side fails at that time"."""
    left = value(constraint.left, valuation, time)
    right = value(constraint.right, valuation, time)
    if left is None or right is None:
        return False
    if constraint.sign == "->":
        return left == 0 or right != 0
    return COMPARE_SIGN[constraint.sign](left, right)


PENDING, DONE, BROKEN = "pending", "done", "broken"


def until_at(constraint, valuation, time):
    """What one time does to an `until` that was pending before: done if the
    right side is true, broken if neither side is, else still pending;
    "`until` treats none as 0"."""
    if is_true(value(constraint.right, valuation, time)):
        return DONE
    if not is_true(value(constraint.left, valuation, time)):
        return BROKEN
    return PENDING


def until_status(constraint, valuation, times):
    """The status of an `until` judged at times 0 to times - 1."""
    for time in range(times):
        status = until_at(constraint, valuation, time)
        if status != PENDING:
            return status
    return PENDING
