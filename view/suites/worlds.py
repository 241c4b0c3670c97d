"""Runs a chart line by line, from any world that it came to before."""
from math import floor

from chart_check import ends_of
from chart_rules import value_text

from measure.covered import Covered
from measure.parts import CLIP, FAULT, VALUE


class Node:
    """A world that a run came to: the line that led there, what that line covered, and the node before. `result` is that of the
    line, and a run that ended with a fault has no further line."""
    __slots__ = 'before', 'event', 'inputs', 'noted', 'result', 'length', 'active', 'values', 'remembered'

    def __init__(self, before, event, inputs, noted, result):
        self.before, self.event, self.inputs, self.noted, self.result = before, event, inputs, noted, result
        self.length = before.length + 1 if before else 0
        self.active = self.values = self.remembered = None

    def nodes(self):
        """The nodes of the run, from the start on."""
        found, node = [], self
        while node:
            found.append(node)
            node = node.before
        return found[::-1]

    def lines(self):
        """The events and inputs of the run, of which there is one for each node after the start."""
        return [(each.event, each.inputs) for each in self.nodes()[1:]]

    def covered(self):
        """All that the run covers."""
        return set().union(*(each.noted for each in self.nodes()))

    def world(self):
        return self.active, self.values, self.remembered


class Guided(Covered):
    """A run that also tells how near it came to what is missing: a value of a condition, a clip, an overflow. `nearest` has for the
    key of each missing one how near any run came, or None where none did, and `nearer` the keys to which the last line came nearer
    than any before."""

    def __init__(self, parts, depth, steps):
        super().__init__(parts, depth, steps)
        self.nearest, self.nearer = {}, set()

    def value(self, expression):
        found = super().value(expression)
        role = self.roles.get(id(expression))
        if role is not None and role.condition is not None:
            key = (VALUE, *role.condition, not found)
            if key in self.nearest and hasattr(expression, 'left'):
                self.compare(key, self.value(expression.left), self.value(expression.right))
        return found

    def compare(self, key, left, right):
        """Measures a comparison of two numbers that isn't what is missing."""
        if not isinstance(left, bool):
            self.came(key, abs(left - right))

    def fitted(self, datum, number):
        scale, place = datum.scale, self.assigned
        mantissa = floor(number * 2 ** scale.fraction)
        least, greatest = ends_of(scale)
        keys = [(CLIP, place, 'lower'), (CLIP, place, 'upper'), (CLIP, place, 'wrap'), (FAULT, 'overflow', place)]
        for key, distance in zip(keys, (mantissa - least, greatest - mantissa, *[min(mantissa - least, greatest - mantissa)] * 2)):
            if key in self.nearest:
                self.came(key, distance)
        return super().fitted(datum, number)

    def came(self, key, distance):
        before = self.nearest[key]
        if before is None or distance < before:
            self.nearest[key] = distance
            self.nearer.add(key)


class Machine:
    """Takes a chart from one world to the next."""

    def __init__(self, rules):
        self.rules, self.chart = rules, rules.chart
        self.known = {}
        self.lines_run = 0
        # The node after the start, for which the rules are new.
        self.first = self.node(None, None, {}, rules.start())

    def load(self, node):
        """Makes the world of a node that of the rules."""
        rules = self.rules
        rules.active = set(node.active)
        rules.values = dict(zip(self.chart.data, node.values))
        rules.remembered = dict(node.remembered)

    def step(self, node, event, inputs):
        """The node after one more line. Inputs that have the value already are left out."""
        self.load(node)
        values = self.rules.values
        inputs = {datum: value for datum, value in inputs.items() if values[datum] != value}
        self.rules.noted, self.rules.nearer, self.rules.is_blamed = set(), set(), False
        self.lines_run += 1
        return self.node(node, event, inputs, self.rules.react(event, inputs))

    def node(self, before, event, inputs, result):
        """The node of the world at which the rules now are."""
        rules = self.rules
        noted = frozenset(rules.noted)
        node = Node(before, event, inputs, self.known.setdefault(noted, noted), result)
        active = frozenset(rules.active)
        node.active = self.known.setdefault(active, active)
        node.values = tuple(rules.values[datum] for datum in self.chart.data)
        node.remembered = tuple(sorted(rules.remembered.items(), key=lambda pair: pair[0].at))
        return node

    def run(self, lines, node=None):
        """The node after some lines, or at the line that ends the run with a fault."""
        node = node or self.first
        for event, inputs in lines:
            if node.result != 'ok':
                break
            node = self.step(node, event, inputs)
        return node


def line_text(event, inputs):
    """A line of an event file."""
    given = ['%s=%s' % (datum.name, value_text(value)) for datum, value in inputs.items()]
    return ' '.join([event.name if event else 'tick', *given])


def events_text(lines):
    return ''.join(line_text(*line) + '\n' for line in lines)
