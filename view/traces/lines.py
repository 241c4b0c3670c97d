"""The lines of a whole trace, as parts that can be compared."""
import re
from typing import NamedTuple

import common                                # noqa: F401, which finds the folder checks

LINE = re.compile(r'([0-9]+) (\S+) \[([^\]\s]*)\] (\S+) (\S+) (ok|depth|steps|zero|overflow \w+)')


class BadLine(Exception):
    """A line that is none of a trace, or of changes: its number and what is wrong with it."""

    def __init__(self, number, said):
        super().__init__(said)
        self.number, self.said = number, said


class Line(NamedTuple):
    """A line of a trace. States are paths, in the order of the text; values are texts by the name of the datum, in the order of
    declaration; the result is `ok` or a fault."""
    index: int
    event: str
    states: tuple
    values: tuple
    outputs: tuple
    result: str

    def text(self):
        values = ','.join('%s=%s' % pair for pair in self.values) or '-'
        return '%d %s [%s] %s %s %s\n' % (self.index, self.event, ','.join(self.states), values, ','.join(self.outputs) or '-',
                                          self.result)


def names_in(field):
    """The names of a field in which a comma stands between them."""
    return () if field in ('', '-') else tuple(field.split(','))


def is_trace(text):
    """Whether a text begins as a whole trace does, and not as changes do."""
    first = text.split('\n', 1)[0]
    return LINE.fullmatch(first) is not None and first.startswith('0 start ')


def read_trace(text):
    """The lines of a whole trace. BadLine where one isn't in its form."""
    found = []
    for number, line in enumerate(text.split('\n')[:-1], 1):
        parts = LINE.fullmatch(line)
        if not parts or int(parts[1]) != number - 1:
            raise BadLine(number, 'this is no line of a trace at its place: %s' % line[:60])
        pairs = tuple(tuple(each.split('=', 1)) for each in names_in(parts[4]))
        if any(len(each) != 2 for each in pairs):
            raise BadLine(number, 'a value has no =: %s' % parts[4][:60])
        found.append(Line(int(parts[1]), parts[2], names_in(parts[3]), pairs, names_in(parts[5]), parts[6]))
    if not text.endswith('\n'):
        raise BadLine(len(found) + 1, 'the last line has no end' if text else 'the trace has no line')
    return found


def states_of(chart, paths, number):
    """The set of states that paths name, with the chart itself. BadLine where one isn't in the chart."""
    known = {each.path(): each for each in chart.states if each.parent}
    found = {chart.root}
    for path in paths:
        if path not in known:
            raise BadLine(number, 'the chart has no state %s' % path)
        found.add(known[path])
    return found


def paths_of(chart, states):
    """The paths of some states in the order of the text."""
    return tuple(each.path() for each in chart.states if each.parent and each in states)
