"""The least and the greatest value that an expression may have, by the ranges of the types of what it reads alone."""
from fractions import Fraction
from math import floor

from chart_check import Literal, Read, Sign, ends_of, type_of


def range_of(expression):
    """The least and the greatest value of a number expression. Each datum has any value of its type."""
    if isinstance(expression, Literal):
        return (Fraction(expression.mantissa, 2 ** expression.fraction),) * 2
    if isinstance(expression, Read):
        scale = expression.datum.scale
        return tuple(Fraction(end, 2 ** scale.fraction) for end in ends_of(scale))
    if isinstance(expression, Sign):
        least, greatest = range_of(expression.operand)
        return -greatest, -least
    return range_between(expression, range_of(expression.left), range_of(expression.right))


def range_between(expression, left, right):
    """The range of an operator and two operands."""
    if expression.operator == '+':
        return left[0] + right[0], left[1] + right[1]
    if expression.operator == '-':
        return left[0] - right[1], left[1] - right[0]
    if expression.operator == '*':
        ends = [a * b for a in left for b in right]
        return min(ends), max(ends)
    fraction = type_of(expression, []).fraction
    ends = [Fraction(floor(a / b * 2 ** fraction), 2 ** fraction) for a in left for b in divisors(expression.right, right)]
    return (min(ends), max(ends)) if ends else (Fraction(0),) * 2


def divisors(expression, ends):
    """The ends of the divisors below 0 and of those above 0: a quotient is greatest and least at one of these."""
    least, greatest = ends
    step = Fraction(1, 2 ** type_of(expression, []).fraction)
    if least < 0:
        yield from (least, min(greatest, -step))
    if greatest > 0:
        yield from (greatest, max(least, step))


def sides_out_of_range(assignment):
    """The ends of the datum's range that the assigned value may lie behind: `lower`, `upper`."""
    scale = assignment.datum.scale
    least, greatest = (floor(end * 2 ** scale.fraction) for end in range_of(assignment.value))
    lower, upper = ends_of(scale)
    return [side for side, is_out in (('lower', least < lower), ('upper', greatest > upper)) if is_out]


def may_be_zero(expression):
    least, greatest = range_of(expression)
    return least <= 0 <= greatest
