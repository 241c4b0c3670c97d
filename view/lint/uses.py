"""What of data, events and states the actions and guards of a chart use."""
from collections import defaultdict

import common                                # noqa: F401, which finds the folder checks
from chart_check import LISTS, Active, Assign, Between, Emit, Read, Send, Sign, reached_transitions


def parts_of(expression):
    """An expression and all within it."""
    waiting = [expression]
    while waiting:
        part = waiting.pop()
        yield part
        if isinstance(part, Sign):
            waiting.append(part.operand)
        elif isinstance(part, Between):
            waiting += [part.right, part.left]


class Uses:
    """Which data are read and written, and which events are named, sent and emitted, and where."""

    def __init__(self, chart):
        self.chart = chart
        self.read, self.written, self.asked = set(), defaultdict(list), set()
        self.named, self.sends, self.emitted = set(), [], set()
        self.heard, self.answers = {}, {}
        for transition in chart.transitions():
            if transition.event:
                self.named.add(transition.event)
            if transition.guard:
                self.expression(transition.guard.expression)
        for block in chart.blocks():
            for statement in block:
                self.statement(statement)

    def expression(self, expression):
        for part in parts_of(expression):
            if isinstance(part, Read):
                self.read.add(part.datum)
            elif isinstance(part, Active):
                self.asked.add(part.state)

    def statement(self, statement):
        if isinstance(statement, Assign):
            self.written[statement.datum].append(statement)
            self.expression(statement.value)
        elif isinstance(statement, Send):
            self.sends.append(statement)
        elif isinstance(statement, Emit):
            self.emitted.add(statement.event)

    def sent(self):
        return {each.event for each in self.sends}

    def events_of(self, state):
        """The events that the transitions of a state name, with those of the junctions that its lists reach."""
        if state not in self.heard:
            self.heard[state] = {each.event for kind in LISTS for each in reached_transitions(state.lists[kind]) if each.event}
        return self.heard[state]

    def hears(self, state, event):
        """Whether a transition of a state or of one below it names an event."""
        if (state, event) not in self.answers:
            self.answers[state, event] = any(event in self.events_of(each) for each in state.with_all_below())
        return self.answers[state, event]
