"""What is said of a run that ends in a fault, with the place in the chart where it happened."""
import re

import common                                # noqa: F401, which finds the folder checks
import chart_rules as rules
from chart_rules import Rules, RunFault, value_text
from common.places import Message
from fractions import Fraction
from why.types import range_text

LINE = re.compile(r'run ([0-9]+): (depth|steps|zero|overflow \w+)')


class Placed(Rules):
    """The rules, which keep the place of a statement, a guard or a transition that ends in a fault."""

    def __init__(self, *given):
        super().__init__(*given)
        self.here, self.transition, self.place, self.mantissa = None, None, None, None

    def noted(self, at, work):
        """Does some work, and keeps the place where it ends in a fault, unless one further inside was kept."""
        try:
            return work()
        except RunFault:
            if self.place is None:
                self.place = at
            raise

    def block(self, life, statements):
        transition = self.transition
        for statement in statements:
            if self.noted(statement.at, lambda each=statement: Rules.block(self, life, [each])) == rules.CUT:
                return rules.CUT
            self.transition = transition
        return rules.DONE

    def is_enabled(self, transition):
        self.transition = transition
        return self.noted(transition.at, lambda: Rules.is_enabled(self, transition))

    def value_between(self, expression):
        return self.noted(expression.at, lambda: Rules.value_between(self, expression))

    def fitted(self, datum, number):
        self.mantissa = number
        return super().fitted(datum, number)

    def pay(self, what):
        at = self.transition.at if what == 'a junction' and self.transition else None
        if at is None:
            return super().pay(what)
        return self.noted(at, lambda: Rules.pay(self, what))


def run_message(chart, data, line, depth, steps):
    """The message of flowc's line about a fault of a run, or None where the reference runs otherwise."""
    found = LINE.fullmatch(line)
    if not found:
        return None
    placed = Placed(chart, depth, steps)
    if rules.run_events(placed, data.encode('latin-1')).error != line + '\n':
        return None
    kind = found[2].split(' ')[0]
    where = 'at the start' if found[1] == '0' else 'in event %s' % found[1]
    at = placed.place if placed.place is not None else chart.root.at
    return Message(at, kind, *said(placed, kind, found[2], where, depth, steps))


def said(placed, kind, result, where, depth, steps):
    """What is said of the fault, and the notes."""
    if kind == 'depth':
        return '%s sends nest deeper than %d' % (where, depth), (
            'what is sent leads to this send again: a during action that broadcasts is run again by its broadcast',
            'write: `send E to S;` where one region listens, or send in an entry or a transition action; or raise --depth')
    if kind == 'steps':
        return '%s more than %d steps are needed' % (where, steps), (
            'junctions, sends, emits and transition actions cost a step each; a cycle of junctions that nothing ends takes all',
            'write: a guard that ends the cycle; or raise --steps, at most %d' % rules.MOST_STEPS)
    if kind == 'zero':
        return '%s a divisor is 0' % where, (
            'write: a guard before it, as `[b != 0 && a / b > 1]`, whose right side waits for the left',)
    name = result.split(' ')[1]
    datum = next(each for each in placed.chart.data if each.name == name)
    return '%s %s would become %s' % (where, name, value_text(floored(datum.scale, placed.mantissa))), (
        range_text(datum.scale), 'write: a wider type, or `saturate` or `wrap` in place of `error`')


def floored(scale, number):
    return Fraction((number * 2 ** scale.fraction).__floor__(), 2 ** scale.fraction)
