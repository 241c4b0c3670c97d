"""Conditions that are never true, or always."""
import common                                # noqa: F401, which finds the folder checks
from chart_check import FLAG, Active, Assign, Between, Read, type_of
from chart_rules import value_text
from lint.ranges import Ranges, TooMany
from lint.uses import parts_of
from why.types import range_text


class Conditions:
    """The guards of a chart, and what is known of them."""

    def __init__(self, chart):
        self.chart, self.ranges, self.state_of = chart, Ranges(chart), {}
        for state, kind, transitions in chart.lists():
            if kind != 'default':
                self.state_of.update((each.at, state) for each in transitions)
        self.known = {}

    def cases(self, transition):
        """The cases in which the guard of a transition is true, or None where there are too many of them."""
        if transition.at not in self.known:
            self.known[transition.at] = self.found(transition)
        return self.known[transition.at]

    def found(self, transition):
        if transition.guard is None:
            return None
        try:
            return self.ranges.cases(transition.guard.expression, True, self.state_of.get(transition.at))
        except TooMany:
            return None

    def never(self, transition):
        """Whether the guard of a transition is never true."""
        return transition.guard is not None and self.cases(transition) == []

    def constant(self, expression, state):
        """The flag that an expression always is, or None."""
        try:
            if not self.ranges.cases(expression, True, state):
                return False
            return None if self.ranges.cases(expression, False, state) else True
        except TooMany:
            return None

    def constants(self):
        """The conditions that are always the same, each as its place, the expression, the flag, and the state of the transition
        or None. What is written with true and false alone is meant; of conditions in each other the innermost is told."""
        for transition in self.chart.transitions():
            if transition.guard:
                yield from self.inside(transition.guard.expression, transition.guard.at, self.state_of.get(transition.at))
        for block in self.chart.blocks():
            for statement in block:
                if isinstance(statement, Assign):
                    yield from self.inside(statement.value, statement.at, None)

    def inside(self, expression, at, state):
        """The conditions in an expression; the place is that of what has no place of its own."""
        at = getattr(expression, 'at', at)
        found = []
        for part in (getattr(expression, name, None) for name in ('operand', 'left', 'right')):
            if part is not None:
                found += self.inside(part, at, state)
        if found or not self.is_condition(expression):
            return found
        value = self.constant(expression, state)
        return [] if value is None else [(at, expression, value, state)]

    def is_condition(self, expression):
        """Whether an expression is a flag that something may change."""
        flag = isinstance(expression, (Active, Between)) and type_of(expression, []) == FLAG
        return flag and self.ranges.reads_what_changes(expression)

    def reason(self, expression, state):
        """Why a condition is always the same, in words."""
        if isinstance(expression, Active):
            if expression.state is state or state.is_below(expression.state):
                return '%s is active wherever a transition of %s is tried' % (expression.state.path(), state.path())
            return '%s and %s are never active at once' % (expression.state.path(), state.path())
        if expression.operator in ('&&', '||'):
            return 'its two sides exclude each other' if expression.operator == '&&' else 'one of its two sides always holds'
        data = dict.fromkeys(each.datum for each in parts_of(expression) if isinstance(each, Read))
        return '; '.join(self.range_of(each) for each in data)

    def range_of(self, datum):
        """Which values a datum has, in words."""
        if datum in self.ranges.constants:
            return '%s is always %s' % (datum.name, value_text(datum.first()))
        return '%s is of the type %s' % (datum.name, range_text(datum.scale).replace(' goes', ', which goes'))
