#!/usr/bin/env python3
"""Runs the C that a built `chart_to_c` writes of charts by the words of docs/C_SUBSET.md alone, and compares the traces.

    python3 checks/tables/c_runs.py --against CHART_TO_C CHART ..

c_subset.py reads the header and the source and runs them. It refuses what isn't in the grammar of the page, and stops at what has
no rule there. The event file is read and the trace is written by chart_rules.py, with the states and the values of the struct.
After the last event each number that is no event must be refused, and where the run is over each number, and a second start. Each
chart is run over the event file that stands beside it, and compared with the trace there. random_c_runs.py does the same of random
charts.

The program ends with status 1 where anything differs. A chart takes about half a second of a processor."""
import os
import sys
import tempfile
from fractions import Fraction

import beside                                # noqa: F401, which finds the other folders of checks
import c_subset
import chart_rules as rules
from c_subset import ENDINGS, Run, ending
from chart_c import Failed, Kept, c_name, field_of, make_c, state_name
from chart_check import check_chart
from programs import Ended, differences, parser

FUEL = 100000
FAULTS = {1: 'depth', 2: 'steps', 3: 'overflow', 4: 'zero'}
DEFAULT_BOUNDS = (rules.DEFAULT_DEPTH, rules.DEFAULT_STEPS)
NO_EVENT = 5                # the fault of a number that is no event
GREATEST = 2 ** 32 - 1


class Machine:
    """The C of a chart and its struct, in the form of the rules of chart_rules.py: what it shows is the world."""

    def __init__(self, chart, file):
        self.chart, self.name, self.file, self.run = chart, c_name(chart), file, Run(file)
        self.active, self.values, self.outputs = set(), {}, []

    def met(self, case):
        """Counts nothing."""

    def start(self):
        self.called('init')
        return self.result('start')

    def react(self, event, inputs):
        """One event, which is None for a tick, with the values that are given to inputs."""
        for datum, value in inputs.items():
            mantissa = int(value) if datum.scale is None else int(value * 2 ** datum.scale.fraction)
            self.run.store(field_of(datum), None, mantissa)
        return self.result('react', self.number(event))

    def number(self, event):
        """The number of an event, which is None for a tick."""
        return self.file.constants['%s_TICK' % self.name if event is None else '%s_E_%s' % (self.name, event.name)]

    def result(self, call, *arguments):
        """Calls the start or a reaction, takes what the struct shows, and gives the result of the trace."""
        is_ok = self.called(call, *arguments)
        self.active = {state for state in self.chart.states if state.parent and self.called('in_' + state_name(state))}
        self.values = {datum: self.value(datum) for datum in self.chart.data}
        self.outputs = [self.chart.events[each] for each in self.run.elements['out'][:self.run.fields['outs']]]
        if is_ok:
            return 'ok'
        fault = FAULTS[self.run.fields['fault']]
        return 'overflow ' + self.chart.data[self.run.fields['fault_datum']].name if fault == 'overflow' else fault

    def members(self):
        """What the struct holds now."""
        return dict(self.run.fields), {name: list(each) for name, each in self.run.elements.items()}

    def refusals(self):
        """What should be refused now: calls with their arguments, and the members that each has to leave."""
        fields, elements = kept = self.members()
        over = dict(fields, fault=NO_EVENT, fault_datum=0, ready=0), elements
        taken = {self.number(each) for each in self.chart.events if each.kind == 'input'} | {self.number(None)}
        for number in (*range(self.number(None) + 3), GREATEST):
            if not fields['ready'] or number not in taken:
                yield ('react', number), over if fields['ready'] else kept
        yield ('start',), kept

    def check_refusals(self):
        """Makes each call that should be refused, from the struct as it is, and holds what it leaves against what it should."""
        fields, elements = self.members()
        for call, expected in list(self.refusals()):
            self.run.fields, self.run.elements = dict(fields), {name: list(each) for name, each in elements.items()}
            if self.called(*call) or self.members() != expected:
                raise Failed('%s%r is not refused as it should be' % (call[0], call[1:]))

    def called(self, call, *arguments):
        return self.run.called('%s_%s' % (self.name, call), list(arguments), FUEL).number

    def value(self, datum):
        mantissa = self.run.fields[field_of(datum)]
        return bool(mantissa) if datum.scale is None else Fraction(mantissa, 2 ** datum.scale.fraction)


def run_c(program, text, events, options=()):
    """The answer of the C of a chart text to an event file, as that of `flowc rules`."""
    with tempfile.TemporaryDirectory() as folder:
        source, _ = make_c(program, text, folder, options)
        try:
            file = c_subset.read_file(os.path.join(folder, source))
            machine = Machine(check_chart(text), file)
            answer = rules.run_events(machine, events.encode('latin-1'))
            machine.check_refusals()
            return answer
        except ENDINGS as wrong:
            return Ended('', ending(wrong) + '\n', None)


def compared(name, program, text, events, expected, options=()):
    """Lines that tell what is wrong of a chart."""
    try:
        return differences(name, expected, run_c(program, text, events, options))
    except Failed as failed:
        return ['%s: %s' % (name, failed)]


def words_for(bounds):
    """The options of bounds, and none where they are the default ones."""
    return [] if bounds == DEFAULT_BOUNDS else ['--depth', str(bounds[0]), '--steps', str(bounds[1])]


def main(words):
    """Does what the words ask for, and gives the status."""
    reader = parser(__doc__)
    reader.add_argument('--against', metavar='CHART_TO_C', type=os.path.abspath, required=True)
    reader.add_argument('charts', metavar='CHART', nargs='+')
    options = reader.parse_args(words)
    wrong = []
    for case in map(Kept, options.charts):
        lines = compared(case.name, options.against, *case.texts())
        print(''.join(line + '\n' for line in lines), end='', flush=True)
        wrong += lines
    print('%d charts%s' % (len(options.charts), '' if wrong else ', with the traces that are expected'))
    return 1 if wrong else 0


if __name__ == '__main__':
    sys.exit(rules.with_deep_calls(lambda: main(sys.argv[1:])))
