"""Constants that don't fit a datum, and literals that are coarser than what they are compared with."""
import re
from fractions import Fraction
from math import floor

import common                                # noqa: F401, which finds the folder checks
from chart_check import FLAG, Assign, Between, Literal, Read, Sign, ends_of, type_of
from chart_syntax import COMPARISON, LEVELS
from lint.uses import parts_of

WITH_BITS = re.compile(r'[^;]*[0-9]q[0-9]')
LONGEST = 200               # bytes that are looked at before a comparison for its literal


def value_of(expression):
    """The number that an expression without names always is, or None. Quotients aren't followed."""
    if isinstance(expression, Literal):
        return Fraction(expression.mantissa, 2 ** expression.fraction)
    if isinstance(expression, Sign) and expression.operator == '-':
        inside = value_of(expression.operand)
        return None if inside is None else -inside
    if isinstance(expression, Between) and expression.operator in ('+', '-', '*'):
        left, right = value_of(expression.left), value_of(expression.right)
        if left is not None and right is not None:
            return {'+': left + right, '-': left - right, '*': left * right}[expression.operator]
    return None


def that_saturate(chart, ranges):
    """Each assignment of what is never in the range of a datum which saturates, with the number, or None where that isn't a
    constant, and the end of the range that the datum becomes."""
    for block in chart.blocks():
        for statement in block:
            if isinstance(statement, Assign) and statement.datum.scale and statement.datum.mode == 'saturate':
                ends, scale = ranges.interval(statement.value), statement.datum.scale
                least, greatest = ends_of(scale)
                if ends and floor(ends[0] * 2 ** scale.fraction) > greatest:
                    yield statement, value_of(statement.value), Fraction(greatest, 2 ** scale.fraction)
                elif ends and floor(ends[1] * 2 ** scale.fraction) < least:
                    yield statement, value_of(statement.value), Fraction(least, 2 ** scale.fraction)


def rounded(text, chart):
    """Each assignment of a constant that lies between two values of a datum, with the constant and the value that the datum gets.
    Where a number is written with q, it is rounded as it was asked."""
    for block in chart.blocks():
        for statement in block:
            if isinstance(statement, Assign) and statement.datum.scale:
                value, scale = value_of(statement.value), statement.datum.scale
                mantissa = None if value is None else value * 2 ** scale.fraction
                if mantissa is not None and mantissa != floor(mantissa) and not WITH_BITS.match(text, statement.at):
                    least, greatest = ends_of(scale)
                    if least <= floor(mantissa) <= greatest:
                        yield statement, value, Fraction(floor(mantissa), 2 ** scale.fraction)


def comparisons(chart):
    """All comparisons of numbers."""
    expressions = [each.guard.expression for each in chart.transitions() if each.guard]
    expressions += [each.value for block in chart.blocks() for each in block if isinstance(each, Assign)]
    for expression in expressions:
        for part in parts_of(expression):
            if isinstance(part, Between) and part.operator in LEVELS[COMPARISON] and type_of(part.left, []) != FLAG:
                yield part


def reads_something(expression):
    return any(isinstance(each, Read) for each in parts_of(expression))


def plain_literal(expression):
    """The literal that an expression is, also with a sign before it, or None."""
    if isinstance(expression, Sign) and expression.operator == '-':
        expression = expression.operand
    return expression if isinstance(expression, Literal) else None


def literal_texts(text, comparison):
    """What is written to the left and to the right of a comparison, as numbers with q: the decimal text and its bits."""
    left = re.search(r'([0-9]+\.[0-9]+)q([0-9]+)[\s)]*\Z', text[max(0, comparison.at - LONGEST):comparison.at])
    right = re.compile(r'(?:==|!=|<=|>=|<|>)[\s(]*(?:-[\s(]*)?([0-9]+\.[0-9]+)q([0-9]+)').match(text, comparison.at)
    return left, right


def coarse(text, chart):
    """Each comparison with a literal that differs from what is written by at least one step of the other side: the comparison,
    the written digits, the value that is compared with, and the step of the other side."""
    for part in comparisons(chart):
        for side, other, found in zip((part.left, part.right), (part.right, part.left), literal_texts(text, part)):
            literal = plain_literal(side)
            if literal is None or found is None or not reads_something(other):
                continue
            value = Fraction(literal.mantissa, 2 ** literal.fraction)
            step = Fraction(1, 2 ** type_of(other, []).fraction)
            if Fraction(found[1]) - value >= step:
                yield part, '%sq%s' % (found[1], found[2]), value, step
