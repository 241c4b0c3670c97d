"""Bounds of random charts, and runs under exactly these bounds.

    python3 checks/random/main.py bounds --seed S --cases N [--against PROGRAM] [--files K]

A case is a chart of random_charts.py; one in ten is changed, so that it is mostly refused. The bounds of an accepted chart are
those of bounds.py. Where there are some, chart_rules.py runs the chart over K random event files, 2 where nothing is said, under
exactly these bounds, and no run may end with the fault `depth` or `steps`. Seven charts in ten lose most of their sends and of
their transitions that name no event, since with many of these a chart has no bounds.

With `--against PROGRAM` the program does `bounds` on each text, also on those that are refused, which must be the answer of
bounds.py, and `rules`, `run`, and `exec` of what `compile` writes on each event file under these bounds, which must be the answers
of chart_rules.py. Without it most texts aren't even written."""
import os
import random
from collections import Counter

import beside                                # noqa: F401, which finds the other folders of checks
import bounds
import chart_check as check
import chart_rules as rules
import chart_syntax as syntax
import random_charts
from campaign import Campaign
from programs import Ended, differences, ended, keep_files

LONGEST = 120               # seconds for one command
OVERRUN = ('depth', 'steps')
TEXT_NOT_WRITTEN = '// The text of this chart is written with --against only.\n'


def thinned_block(choices, block):
    return [each for each in block if not isinstance(each, syntax.Send) or choices.random() < 0.3]


def thinned_transitions(choices, transitions, events):
    """The transitions with fewer sends, and where there are events, with one of these in most that name none."""
    for each in transitions:
        event = each.event
        if event is None and events and choices.random() < 0.8:
            event = choices.choice(events).name
        yield each._replace(event=event, condition=thinned_block(choices, each.condition), action=thinned_block(choices, each.action))


def thin(choices, state, inputs):
    """Takes sends out of a state and those below it, and names input events in most outer and inner transitions without event."""
    state.blocks = {kind: thinned_block(choices, block) for kind, block in state.blocks.items()}
    for kind, transitions in state.transitions.items():
        state.transitions[kind] = list(thinned_transitions(choices, transitions, [] if kind == 'default' else inputs))
    for junction in state.junctions:
        junction.transitions[:] = thinned_transitions(choices, junction.transitions, [])
    for each in state.states:
        thin(choices, each, inputs)


class Comparison:
    """Tries charts, and counts what was met."""

    def __init__(self, program, seed, files, keep, folder):
        self.program, self.seed, self.files, self.keep, self.folder = program, seed, files, keep, folder
        self.charts, self.runs = Counter(), Counter()

    def differ(self, number, lines, **contents):
        """Writes what is wrong, and keeps its files."""
        if not lines:
            return
        keep_files(self.keep, 'bounds %s %d' % (self.seed, number),
                   {kind: content.encode('latin-1') for kind, content in contents.items()})
        print('\n'.join(lines), flush=True)

    def run(self, command, *names, options=()):
        return ended([self.program, command, *options, *names], LONGEST, cwd=self.folder, close_fds=False)

    def write(self, name, content):
        with open(os.path.join(self.folder, name), 'wb') as file:
            file.write(content.encode('latin-1'))

    def case(self, number):
        """Tries one chart."""
        choices = random.Random('bounds %s %d' % (self.seed, number))
        maker = random_charts.Maker(choices, True)
        made = maker.chart()
        if choices.random() < 0.7:
            thin(choices, made.root, [event for event in made.events if event.kind == 'input'])
        if choices.random() < 0.1:
            random_charts.Changer(choices, maker, made).change()
        chart, faults = check.faults_of(made)
        text = random_charts.Writer(choices).chart(made) if self.program or faults else ''
        if faults:
            return self.refused(number, text)
        need = bounds.bounds_of(chart)
        expected = Ended(bounds.bounds_line(need) + '\n', '', 0)
        self.charts['accepted'] += 1
        self.charts['without bounds' if need is None else 'with bounds'] += 1
        self.compare_bounds(number, text, expected)
        if need is not None:
            self.charts['with a depth of %s' % ('1' if need.depth == 1 else '2 to 4' if need.depth < 5 else 'more than 4')] += 1
            self.charts['with %s' % ('1 step' if need.steps == 1 else 'at most 10 steps' if need.steps < 11
                                     else 'at most 100 steps' if need.steps < 101 else 'more than 100 steps')] += 1
            for _ in range(self.files):
                self.under_bounds(number, text, chart, need, random_charts.event_file(choices, chart))
        return None

    def refused(self, number, text):
        self.charts['refused'] += 1
        self.compare_bounds(number, text, bounds.answer(text))

    def compare_bounds(self, number, text, expected):
        if self.program:
            self.write('chart', text)
            self.differ(number, differences('chart %d bounds' % number, expected, self.run('bounds', 'chart')), chart=text)

    def under_bounds(self, number, text, chart, need, events):
        """Runs a chart under exactly its bounds."""
        run = rules.Rules(chart, *need)
        told = rules.run_events(run, events.encode('latin-1'))
        self.runs['all'] += 1
        self.runs['events'] += told.out.count('\n') - 1
        result = told.out.rstrip('\n').rsplit(' ', 1)[1] if told.status == 3 else 'status %d' % told.status
        self.runs['ends with ' + ('overflow' if 'overflow' in told.error else result)] += 1
        lines = ['chart %d overruns depth %d steps %d: %s' % (number, *need, told.error)] if result in OVERRUN else []
        if self.program:
            lines += self.compare_runs(number, need, events, told)
        self.differ(number, lines, chart=text or TEXT_NOT_WRITTEN, events=events)

    def compare_runs(self, number, need, events, told):
        self.write('events', events)
        options = ['--depth', str(need.depth), '--steps', str(need.steps)]
        name = 'chart %d depth %d steps %d ' % (number, *need)
        lines = []
        self.write('code', self.run('compile', 'chart').out)
        for command, first in (('rules', 'chart'), ('run', 'chart'), ('exec', 'code')):
            lines += differences(name + command, told, self.run(command, first, 'events', options=options))
        return lines


def add_options(reader):
    reader.add_argument('--against', metavar='PROGRAM', type=os.path.abspath)
    reader.add_argument('--files', metavar='K', type=int, default=2)


def campaign(options, folder):
    """Tries charts; main.py calls it."""
    comparison = Comparison(options.against, options.seed, options.files, options.keep, folder)
    return Campaign(comparison.case, lambda: {'charts': comparison.charts, 'runs under exactly the bounds': comparison.runs})
