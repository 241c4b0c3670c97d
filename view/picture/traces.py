"""The lines of a trace, each held against the chart: what is no line of a trace of this chart is refused."""
import re
from collections import namedtuple
from fractions import Fraction

from chart_check import is_value_of
from chart_rules import value_text

# The states are ids. Of a run by the reference `fired` has the ids of the transitions on ways to a state, `ended` those on
# ways to an empty junction, and `entered` the ids of states; of a trace the three are None.
Line = namedtuple('Line', 'text index event states values outputs result fired ended entered', defaults=(None, None, None))


class NotATrace(Exception):
    """A line that isn't one of a trace of the chart."""


def is_trace(data):
    return data.startswith(b'0 start [')


def is_trace_of_net(data):
    return re.match(rb'0 [A-Za-z]\w* 0 start \[', data) is not None


class Trace:
    """Reads the lines of a trace of a chart."""

    def __init__(self, model):
        self.model = model
        self.states = {model.paths[state]: state for state in model.chart.states[1:]}
        self.places = {state: place for place, state in enumerate(model.chart.states)}
        self.inputs = {event.name for event in model.chart.events if event.kind == 'input'} | {'tick'}
        self.outputs = {event.name for event in model.chart.events if event.kind == 'output'}
        self.known_values = set()

    def lines(self, data):
        """All lines of a trace. Only the last one may have a fault."""
        texts = data.decode('latin-1').split('\n')
        if texts[-1] != '':
            raise NotATrace('line %d of the trace is cut: %s' % (len(texts), texts[-1][:80]))
        lines = [self.line(text, number) for number, text in enumerate(texts[:-1])]
        for line in lines[:-1]:
            if line.result != 'ok':
                text = texts[line.index + 1][:80]
                raise NotATrace('line %d of the trace stands after a fault: %s' % (line.index + 2, text))
        return lines

    def line(self, text, number, *told):
        """The line with that number, counted from 0."""
        found = re.fullmatch(r'([0-9]+) (\S+) \[([^\] ]*)\] (\S+) (\S+) (ok|depth|steps|zero|overflow \S+)', text)
        if not found or found[1] != str(number):
            raise self.wrong(text, number, 'it has another form or number')
        event, paths, values, outputs, result = found[2], found[3].split(','), found[4], found[5], found[6]
        if event not in ({'start'} if number == 0 else self.inputs):
            raise self.wrong(text, number, 'no input event is named %s' % event)
        states = [self.states.get(path) for path in paths if path]
        self.demand_states(text, number, paths, states)
        values = self.values(text, number, values)
        outputs = [] if outputs == '-' else outputs.split(',')
        if not set(outputs) <= self.outputs:
            raise self.wrong(text, number, 'an output event has another name')
        if result.startswith('overflow ') and result[9:] not in values:
            raise self.wrong(text, number, 'no datum is named %s' % result[9:])
        return Line(text, number, event, [self.model.state_ids[each] for each in states], values, outputs, result, *told)

    def wrong(self, text, number, why):
        return NotATrace('line %d is no line of a trace of this chart, since %s: %s' % (number + 1, why, text[:80]))

    def demand_states(self, text, number, paths, states):
        """States stand in the order of the chart, each below one that is active, and of an OR at most one child."""
        for path, state in zip(paths, states):
            if state is None:
                raise self.wrong(text, number, 'no state is named %s' % path)
            if state.parent.parent and state.parent not in states:
                raise self.wrong(text, number, '%s is active without its parent' % path)
            if state.parent.composition == 'or' and any(each is not state and each.parent is state.parent for each in states):
                raise self.wrong(text, number, '%s is active beside another state' % path)
        order = [self.places[state] for state in states]
        if order != sorted(set(order)):
            raise self.wrong(text, number, 'its states stand in another order')

    def values(self, text, number, written):
        data = self.model.chart.data
        parts = [] if written == '-' else written.split(',')
        if [each.partition('=')[0] for each in parts] != [datum.name for datum in data]:
            raise self.wrong(text, number, 'its data are others')
        values = {}
        for datum, each in zip(data, parts):
            value = values[datum.name] = each.partition('=')[2]
            if (datum, value) not in self.known_values:
                if not is_value(datum, value):
                    raise self.wrong(text, number, '%s is no value of %s' % (value, datum.name))
                self.known_values.add((datum, value))
        return values


def is_value(datum, text):
    """Whether a text is how a trace writes a value of a datum."""
    if datum.scale is None:
        return text in ('true', 'false')
    if not re.fullmatch(r'-?[0-9]{1,40}(\.[0-9]{1,40})?', text):
        return False
    return is_value_of(datum.scale, Fraction(text)) and value_text(Fraction(text)) == text
