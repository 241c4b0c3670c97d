"""Tries every world that a run can come to, where these are few. Then a goal that doesn't come in any of them never comes.

A world is told from another by its active states, by what its states remember, and by the data that some expression reads. Two
things make the worlds fewer:

    inputs      Where only their order counts (`classes` in inputs.py), a few values stand for all, and a line may set each input, so
                that a world is the same whatever values its inputs have. Otherwise an input of a type of few values has them all.
    counters    A datum that is only compared with numbers, set to numbers, and raised by numbers, and that doesn't wrap, behaves
                alike above all of these numbers: it stays there until it is set. So all values above the greatest count as one.
                Whether it saturates isn't told where it came there."""
import time
from collections import deque
from fractions import Fraction
from itertools import product

from chart_check import Assign, Between, Read, ends_of
from lint.numbers import value_of
from lint.uses import parts_of
from measure.parts import CLIP, FAULT

from suites.inputs import COMPARISONS, classes, events_of, expressions_of, inputs_read

MOST_CHOICES = 1000         # so many ways to set the inputs in one line
MOST_WORLDS = 200000
FEW_VALUES = 64             # a type with so few values is tried whole


def counters(chart):
    """The greatest number that counts for each counter."""
    found = {}
    for datum in chart.data:
        if datum.kind != 'input' and datum.scale and datum.mode == 'saturate':
            greatest = greatest_number(chart, datum)
            if greatest is not None:
                found[datum] = greatest
    return found


def greatest_number(chart, datum):
    """The greatest number that a datum is compared with, set to or begins with, or None where it is no counter."""
    numbers, uses = [datum.first()], 0
    for expression in expressions_of(chart):
        for part in parts_of(expression):
            uses += isinstance(part, Read) and part.datum is datum
            number = other_side(part, datum, COMPARISONS)
            if number is not None:
                numbers.append(number)
                uses -= 1
    for block in chart.blocks():
        for each in block:
            if isinstance(each, Assign) and each.datum is datum:
                number, raised = value_of(each.value), other_side(each.value, datum, ('+',))
                if number is None and (raised is None or raised < 0):
                    return None
                if number is not None:
                    numbers.append(number)
                else:
                    uses -= 1
    return max(numbers) if uses == 0 else None


def other_side(expression, datum, operators):
    """The number without names that stands on the other side of one of these operators than the datum, or None."""
    if isinstance(expression, Between) and expression.operator in operators:
        for one, other in ((expression.left, expression.right), (expression.right, expression.left)):
            if isinstance(one, Read) and one.datum is datum:
                return value_of(other)
    return None


def choices_of(chart):
    """All ways in which a line may set the inputs, as far as they differ, or None where they are too many."""
    found, inputs = classes(chart), inputs_read(chart)
    if found is None:
        found = {datum: [False, True] if datum.scale is None else all_values(datum) for datum in inputs}
    count = 1
    for values in found.values():
        count *= len(values) if values else MOST_CHOICES + 1
    return [dict(zip(found, values)) for values in product(*found.values())] if count <= MOST_CHOICES else None


def all_values(datum):
    """All values of a type of few of them; none of another."""
    least, greatest = ends_of(datum.scale)
    if greatest - least >= FEW_VALUES:
        return []
    return [Fraction(mantissa, 2 ** datum.scale.fraction) for mantissa in range(least, greatest + 1)]


class AllWorlds:
    """The worlds of a chart, each tried with all lines. Where `is_whole` holds at the end, there are no others. With `exact`
    counters have each of their values. The nearest worlds are tried first, so that it ends at the first run that is too long."""

    def __init__(self, finder, exact=False):
        chart = finder.parts.chart
        self.finder, self.machine = finder, finder.machine
        self.choices, self.events, self.counters = choices_of(chart), events_of(chart), {} if exact else counters(chart)
        self.read = {part.datum for expression in expressions_of(chart) for part in parts_of(expression) if isinstance(part, Read)}
        self.seen, self.waiting, self.above = set(), deque(), set()
        self.is_whole = False
        if self.choices is not None:
            self.add(finder.start)

    def key(self, node):
        """What tells a world from another."""
        values = []
        for datum, value in zip(self.machine.chart.data, node.values):
            if datum.kind != 'input' and datum in self.read:
                is_above = datum in self.counters and value > self.counters[datum]
                values.append('above' if is_above else value)
                if is_above:
                    self.above.add(datum)
        return node.active, node.remembered, tuple(values)

    def add(self, node):
        key = self.key(node)
        if node.result == 'ok' and key not in self.seen:
            self.seen.add(key)
            self.waiting.append(node)

    def go(self, until):
        """Tries worlds until that time, or until all are tried."""
        if self.choices is None or self.is_whole:
            return
        while self.waiting and len(self.seen) < MOST_WORLDS:
            node = self.waiting.popleft()
            if node.length >= self.finder.longest:
                return
            for event in self.events:
                for inputs in self.choices:
                    if time.process_time() > until:
                        self.waiting.appendleft(node)
                        return
                    after = self.machine.step(node, event, inputs)
                    self.finder.give(after)
                    self.add(after)
        self.is_whole = not self.waiting

    def tells(self, goal):
        """Whether the goal never comes if it came in no world. Of a counter that was above its numbers the end isn't told."""
        if goal.kind == CLIP or goal.key[:2] == (FAULT, 'overflow'):
            return self.finder.parts.assignments[goal.key[-2 if goal.kind == CLIP else -1]].part.datum not in self.above
        return True
