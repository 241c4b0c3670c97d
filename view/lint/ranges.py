"""Which values of data make a flag true, as far as comparisons with constants tell.

What makes an expression true is a list of cases, and one of them is enough. A case has a range of mantissas for some data, and of
other conditions, as `a < b` and `in(S)`, whether each is true or false. Without a case the expression is never true."""
from collections import namedtuple
from fractions import Fraction
from math import ceil, floor

import common                                # noqa: F401, which finds the folder checks
from chart_check import FLAG, Active, Assign, Between, Literal, Read, Sign, Truth, ends_of, type_of
from lint.uses import parts_of

MOST_CASES = 64
OPPOSITE = {'<': '>=', '>=': '<', '>': '<=', '<=': '>', '==': '!=', '!=': '=='}
MIRRORED = {'<': '>', '>': '<', '<=': '>=', '>=': '<=', '==': '==', '!=': '!='}
Case = namedtuple('Case', 'ranges others')   # datum to its least and greatest mantissa; pairs of a condition and its truth
ALL = Case({}, frozenset())


class TooMany(Exception):
    """An expression of more cases than are looked at."""


def ends_of_datum(datum):
    """The least and the greatest mantissa of a datum; false is 0, and true is 1."""
    return ends_of(datum.scale) if datum.scale else (0, 1)


def both(first, second):
    """The case in which both are met, or None where that is impossible."""
    ranges = dict(first.ranges)
    for datum, (least, greatest) in second.ranges.items():
        low, high = ranges.get(datum, (least, greatest))
        ranges[datum] = max(low, least), min(high, greatest)
        if ranges[datum][0] > ranges[datum][1]:
            return None
    others = first.others | second.others
    return None if any((each, not truth) in others for each, truth in others) else Case(ranges, others)


def all_of(first, second):
    """The cases in which one of the first and one of the second are met."""
    return few([each for one in first for other in second for each in [both(one, other)] if each])


def few(cases):
    if len(cases) > MOST_CASES:
        raise TooMany
    return cases


def is_within(case, other):
    """Whether a case is met only where the other one is."""
    for datum, (least, greatest) in other.ranges.items():
        low, high = case.ranges.get(datum, ends_of_datum(datum))
        if low < least or high > greatest:
            return False
    return other.others <= case.others


def implies(cases, others):
    """Whether one of the others is met wherever one of the cases is."""
    return all(any(is_within(each, other) for other in others) for each in cases)


def shape(expression):
    """An expression without its places, so that two of the same text are equal."""
    if isinstance(expression, Literal):
        return Fraction(expression.mantissa, 2 ** expression.fraction)
    if isinstance(expression, Sign):
        return expression.operator, shape(expression.operand)
    if isinstance(expression, Between):
        return expression.operator, shape(expression.left), shape(expression.right)
    return expression


class Ranges:
    """The cases and the intervals of the expressions of a chart. A datum that is no input and that nothing assigns is a constant:
    it has its first value, where it stands beside data that change."""

    def __init__(self, chart):
        assigned = {each.datum for block in chart.blocks() for each in block if isinstance(each, Assign)}
        self.constants = {each: each.first() for each in chart.data if each.kind != 'input' and each not in assigned}

    def reads_what_changes(self, expression):
        return any(isinstance(each, Active) or isinstance(each, Read) and each.datum not in self.constants
                   for each in parts_of(expression))

    def interval(self, expression, case=ALL):
        """The least and the greatest number that an expression may be in a case, or None where that isn't told."""
        if isinstance(expression, Literal):
            return (Fraction(expression.mantissa, 2 ** expression.fraction),) * 2
        if isinstance(expression, Read):
            return self.values(expression.datum, case)
        if isinstance(expression, Sign):
            inside = self.interval(expression.operand, case)
            return inside and (-inside[1], -inside[0])
        left, right = self.interval(expression.left, case), self.interval(expression.right, case)
        if left is None or right is None or expression.operator == '/' and right[0] <= 0 <= right[1]:
            return None
        does = {'+': lambda a, b: a + b, '-': lambda a, b: a - b, '*': lambda a, b: a * b, '/': lambda a, b: a / b}
        ends = [does[expression.operator](a, b) for a in left for b in right]
        if expression.operator == '/':
            step = Fraction(1, 2 ** type_of(expression, []).fraction)
            ends = [end // step * step for end in ends]
        return min(ends), max(ends)

    def values(self, datum, case):
        """The least and the greatest value of a number in a case."""
        if datum in self.constants:
            return (self.constants[datum],) * 2
        return tuple(Fraction(each, 2 ** datum.scale.fraction) for each in case.ranges.get(datum, ends_of(datum.scale)))

    def cases(self, expression, wanted=True, state=None):
        """The cases in which a flag is as it is wanted. With a state it is the guard of a transition of that state, which is
        active then. TooMany where there are more than are looked at."""
        if isinstance(expression, Truth):
            return [ALL] if expression.value is wanted else []
        if isinstance(expression, Read):
            return [Case({expression.datum: (int(wanted),) * 2}, frozenset())]
        if isinstance(expression, Active):
            return self.activity(expression, wanted, state)
        if isinstance(expression, Sign):
            return self.cases(expression.operand, not wanted, state)
        if expression.operator in ('&&', '||'):
            left, right = (self.cases(each, wanted, state) for each in (expression.left, expression.right))
            return all_of(left, right) if (expression.operator == '&&') is wanted else few(left + right)
        return self.comparison(expression, wanted)

    @staticmethod
    def activity(expression, wanted, state):
        """The cases of `in(S)`: a state and what it is in are active together, and two children of an OR never are."""
        asked = expression.state
        if state is not None and (asked is state or state.is_below(asked)):
            return [ALL] if wanted else []
        if state is not None and not asked.is_below(state) and common_parent(state, asked).composition == 'or':
            return [] if wanted else [ALL]
        return [Case({}, frozenset([(expression, wanted)]))]

    def comparison(self, expression, wanted):
        """The cases of a comparison."""
        operator = expression.operator if wanted else OPPOSITE[expression.operator]
        left, right = expression.left, expression.right
        if type_of(left, []) != FLAG and self.reads_what_changes(expression):
            for side, other, turned in ((left, right, operator), (right, left, MIRRORED[operator])):
                value = self.interval(other)
                if isinstance(side, Read) and side.datum not in self.constants and value and value[0] == value[1]:
                    return self.of_datum(side.datum, turned, value[0])
            known = self.known(operator, self.interval(left), self.interval(right))
            if known is not None:
                return [ALL] if known else []
        if operator in ('>', '<='):
            left, right, operator = right, left, MIRRORED[operator]
        asked = '<' if operator in ('<', '>=') else '==', shape(left), shape(right)
        return [Case({}, frozenset([(asked, operator in ('<', '=='))]))]

    @staticmethod
    def known(operator, left, right):
        """Whether a comparison of numbers in these intervals is always true or always false, or None."""
        if left is None or right is None:
            return None
        if operator in ('==', '!='):
            return operator == '!=' if left[1] < right[0] or right[1] < left[0] else None
        if operator in ('>', '>='):
            left, right, operator = right, left, MIRRORED[operator]
        if operator == '<':
            return True if left[1] < right[0] else False if left[0] >= right[1] else None
        return True if left[1] <= right[0] else False if left[0] > right[1] else None

    @staticmethod
    def of_datum(datum, operator, value):
        """The cases of a datum compared with a number."""
        least, greatest = ends_of(datum.scale)
        mantissa = value * 2 ** datum.scale.fraction
        below, above = (least, ceil(mantissa) - 1), (floor(mantissa) + 1, greatest)
        found = {'<': [below], '>': [above], '<=': [(least, floor(mantissa))], '>=': [(ceil(mantissa), greatest)],
                 '==': [(ceil(mantissa), floor(mantissa))], '!=': [below, above]}[operator]
        if operator == '!=' and mantissa != floor(mantissa):
            return [ALL]
        ends = [(max(low, least), min(high, greatest)) for low, high in found]
        return [Case({datum: each}, frozenset()) for each in ends if each[0] <= each[1]]


def common_parent(first, second):
    """The lowest state in which both of two states are, of which none is in the other."""
    return next(each for each in first.ancestors() if second.is_below(each))
