"""Whether a trace of `net` keeps the law of nets, as docs/NETS.md has it in words, by the texts of the net and the schedule and by
the trace alone. No chart is read or run here: what each chart took is told as an event file, over which a command is to write the
same lines of that chart alone.

`law_of` wants a net text that wasn't refused. A chart doesn't set its inputs, so the value that a chart took of a route stands in
its line of the trace."""
from collections import deque
from typing import NamedTuple

LONGEST_VALUE = 36          # digits of a value in an event file


class Chart(NamedTuple):
    """A chart of a net: its name, its file, the lines of an event file with what it took, and its own lines of the trace."""
    name: str
    file: str
    events: list
    lines: list


class Route(NamedTuple):
    """A route by the words of its line, with its queue. Items without a value are None."""
    from_: int
    emit: str
    to: int
    event: str
    cap: int
    source: str
    target: str
    queue: deque


class Broken(Exception):
    """What of the law doesn't hold."""


def need(holds, what, *more):
    if not holds:
        raise Broken(what % more)


def charts_of(text):
    """The charts of a net text."""
    lines = text.split('\n')
    return [Chart(*line.split(' ')[1:], [], []) for line in lines[2:2 + int(lines[1].split(' ')[1])]]


def routes_of(text):
    """The routes of a net text."""
    made = []
    for line in text.split('\n'):
        if line.startswith('r '):
            from_, emit, to, event, cap, source, target = line.split(' ')[1:]
            made.append(Route(int(from_), emit, int(to), event, int(cap), source, target, deque()))
    return made


def steps_of(schedule):
    """The tokens of each step of a schedule."""
    for line in schedule.split(b'\n'):
        line = line[:-1] if line.endswith(b'\r') else line
        tokens = line.decode('latin-1').replace('\t', ' ').split(' ')
        tokens = [token for token in tokens if token]
        if tokens and not tokens[0].startswith('#'):
            yield tokens


class Line:
    """A line of a trace with its fields."""

    def __init__(self, line):
        self.step, self.name, self.own = line.split(' ', 2)
        fields = self.own.split(' ', 5)
        need(len(fields) == 6, 'a line without its fields: %s', line)
        self.index, self.event, _, values, outputs, self.result = fields
        self.values = dict(pair.split('=') for pair in values.split(',')) if values != '-' else {}
        self.outputs = outputs.split(',') if outputs != '-' else []


class Law:
    """A net that goes through its trace."""

    def __init__(self, text, schedule):
        self.charts, self.routes, self.steps = charts_of(text), routes_of(text), steps_of(schedule)
        self.wanted = None                                  # the result of the last line, or none where that isn't known

    def trace(self, out):
        """Goes through the lines of a trace."""
        for at, line in enumerate(out.split('\n')[:-1]):
            need(self.wanted in (None, 'ok'), 'a line after the one with the result %s', self.wanted)
            step = max(0, at + 1 - len(self.charts))
            need(line.startswith('%d ' % step), 'a line with another number than %d: %s', step, line)
            if step == 0:
                self.chart_line(at, 'start', Line(line))
            else:
                self.step(step, next(self.steps, ['no step']), line)

    def step(self, step, tokens, line):
        """Goes through the line of a step with these tokens."""
        if tokens[0] == 'take':
            route = self.routes[int(tokens[1])]
            if not route.queue:
                self.wanted = 'empty ' + tokens[1]
                need(line == '%d %s' % (step, self.wanted), 'nothing was to be taken: %s', line)
                return
            found, value = Line(line), route.queue.popleft()
            need(value is None or found.values[route.target] == value, '%s was to be taken: %s', value, line)
            taken = [] if value is None else ['%s=%s' % (route.target, value)]
            self.charts[route.to].events.append(' '.join([route.event, *taken]))
            self.chart_line(route.to, route.event, found)
        else:
            need(tokens[0] == 'ev', 'no step for the line %s', line)
            at = [chart.name for chart in self.charts].index(tokens[1])
            self.charts[at].events.append(' '.join(tokens[2:]))
            self.chart_line(at, tokens[2], Line(line))

    def chart_line(self, at, event, line):
        """Goes through the line of a chart, with what it sends."""
        chart, self.wanted = self.charts[at], None
        told = chart.name, str(len(chart.lines)), event
        need((line.name, line.index, line.event) == told, 'another chart, number or event than %s %s %s', *told)
        result = line.result
        if result == 'ok' or result.startswith('full '):
            self.wanted = self.send(at, line)
            need(result == self.wanted, '%s in place of %s', result, self.wanted)
            result = 'ok'
        else:
            self.wanted = result
        chart.lines.append(line.own[:len(line.own) - len(line.result)] + result + '\n')

    def send(self, at, line):
        """Sends what the chart emitted by its line, and gives the result."""
        for emitted in line.outputs:
            for number, route in enumerate(self.routes):
                if (route.from_, route.emit) == (at, emitted):
                    if len(route.queue) == route.cap:
                        return 'full %d' % number
                    route.queue.append(None if route.source == '-' else line.values[route.source])
        return 'ok'


def law_of(text, schedule, out):
    """The charts with what they took and with their lines, and the result of the last line. What doesn't hold is raised."""
    law = Law(text, schedule)
    law.trace(out)
    return law.charts, law.wanted


def is_readable(events):
    """Whether an event file may have these values."""
    return all(sum(letter.isdigit() for letter in token.split('=')[1]) <= LONGEST_VALUE
               for line in events for token in line.split(' ')[1:] if '=' in token)
