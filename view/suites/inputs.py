"""Which values of inputs are worth a try, and where few values stand for all."""
from fractions import Fraction
from math import floor

from chart_check import Assign, Between, Datum, Read, ends_of, is_value_of
from chart_syntax import COMPARISON, LEVELS
from lint.numbers import value_of
from lint.uses import parts_of

COMPARISONS = LEVELS[COMPARISON]


def expressions_of(chart):
    """All guards and all assigned expressions."""
    yield from (each.guard.expression for each in chart.transitions() if each.guard)
    yield from (each.value for block in chart.blocks() for each in block if isinstance(each, Assign))


def inputs_read(chart):
    """The inputs that some expression reads, in the order of the chart."""
    found = {part.datum for expression in expressions_of(chart) for part in parts_of(expression) if isinstance(part, Read)}
    return [datum for datum in chart.data if datum.kind == 'input' and datum in found]


def events_of(chart):
    """The events that a line may have; None is `tick`."""
    return [None] + [event for event in chart.events if event.kind == 'input']


def held(datum, number):
    """The value of the datum's type that is next to a number and not above it, or an end of the type."""
    least, greatest = ends_of(datum.scale)
    return Fraction(min(max(floor(number * 2 ** datum.scale.fraction), least), greatest), 2 ** datum.scale.fraction)


def step_of(datum):
    return Fraction(1, 2 ** datum.scale.fraction)


def around(datum, number):
    """A number and its neighbours, as values of the datum."""
    return [held(datum, number + each * step_of(datum)) for each in (-1, 0, 1)]


def constants_of(chart):
    """The numbers without names that stand in the chart."""
    found = {value_of(part) for expression in expressions_of(chart) for part in parts_of(expression)}
    return sorted(found - {None})


def tried_values(chart, datum):
    """The values of an input that are tried: those near the numbers of the chart, the ends of the type, and the first one."""
    if datum.scale is None:
        return [False, True]
    least, greatest = (Fraction(end, 2 ** datum.scale.fraction) for end in ends_of(datum.scale))
    found = {least, greatest, held(datum, 0), datum.first(), *around(datum, 1)}
    for number in constants_of(chart):
        found.update(around(datum, number))
    return sorted(found)


def classes(chart):
    """For each input that is read some values of which each other value behaves as one of them, or None where that isn't known.

    It is known where each use of the numbers is a comparison with a number without names, or with another input of the same scale.
    Then only their order counts, among one another and among these numbers; so each gap between the numbers gives as many values as
    there are inputs that are compared with one another."""
    inputs = inputs_read(chart)
    numbers = [datum for datum in inputs if datum.scale]
    group, constants = {datum: {datum} for datum in numbers}, {datum: set() for datum in numbers}
    uses = sum(1 for expression in expressions_of(chart) for part in parts_of(expression)
               if isinstance(part, Read) and part.datum in numbers)
    for expression in expressions_of(chart):
        for part in parts_of(expression):
            if isinstance(part, Between) and part.operator in COMPARISONS:
                found = sides_of(part, numbers)
                compared = [each for each in found if isinstance(each, Datum)]
                uses -= len(compared)
                for datum in compared:
                    constants[datum].update(each for each in found if not isinstance(each, Datum))
                if len(compared) == 2:
                    joined = group[compared[0]] | group[compared[1]]
                    group.update(dict.fromkeys(joined, joined))
    if uses:
        return None
    return {datum: sorted(values_between(datum, sorted(set().union(*(constants[each] for each in group[datum]))),
                                         len(group[datum]))) if datum.scale else [False, True] for datum in inputs}


def sides_of(comparison, numbers):
    """The two sides of a comparison of inputs of one scale, or of one with a number; an empty list for another comparison."""
    found = []
    for each in (comparison.left, comparison.right):
        value = each.datum if isinstance(each, Read) and each.datum in numbers else value_of(each)
        if value is None:
            return []
        found.append(value)
    inputs = [each for each in found if isinstance(each, Datum)]
    return found if len({each.scale for each in inputs}) == 1 else []


def values_between(datum, numbers, count):
    """The values of the datum that are one of these numbers, and so many from each gap before, between and after them."""
    least, greatest = (Fraction(end, 2 ** datum.scale.fraction) for end in ends_of(datum.scale))
    found = {number for number in numbers if is_value_of(datum.scale, number)}
    ends = [least - step_of(datum), *(number for number in numbers if least <= number <= greatest), greatest + step_of(datum)]
    for low, high in zip(ends, ends[1:]):
        value = held(datum, low) + step_of(datum) if low >= least else least
        for _ in range(count):
            if low < value < high:
                found.add(value)
            value += step_of(datum)
    return found
