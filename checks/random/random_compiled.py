"""Compares the commands of a built program with each other on random charts and event files.

    python3 checks/random/main.py compiled --seed S --cases N --against PROGRAM [--files K] [--plain]

A case is a chart with K event files, 4 where nothing is said, or fewer where its start ends with a fault, each with bounds, which
are the default ones in half of them. `rules CHART EVENTS`, `run CHART EVENTS`, and `exec CODE EVENTS` with the CODE that
`compile CHART` writes must give the same status, standard output and standard error. `upgrade CODE` must write CODE. A status that
none of these commands has, such as that of a killed process, is a difference too, and so is a command that doesn't end in time.
Where a chart is refused, `check`, `rules`, `run` and `compile` must tell the fault that chart_check.py tells. For one chart in
twenty its text is read by chart_syntax.py, the code is also read and printed by code_text.py, and the traces are compared with
those of code_machine.py, which runs the code, and of chart_rules.py, which runs the chart. With `--plain` the charts have neither
junctions nor sends, which are taken out of those that were made.

Charts are made by random_charts.py; one in ten is changed, so that it is mostly refused."""
import os
import random
from collections import Counter

import beside                                # noqa: F401, which finds the other folders of checks
import chart_check as check
import chart_rules as rules
import chart_syntax as syntax
import code_machine
import code_text
import random_charts
from c_runs import DEFAULT_BOUNDS
from campaign import Campaign
from programs import Ended, differences, ended, keep_files, status_text

USUAL_FILES = 4
ONE_IN = 20
LONGEST = 120               # seconds for one command
RAN = (0, 1, 3)             # the statuses of a command whose chart or code is accepted
PARTS = {'entry': 'an entry action', 'during': 'a during action', 'exit': 'an exit action'}


class Program:
    """The program, and the files that its commands read."""

    def __init__(self, path, folder):
        self.path, self.folder = os.path.abspath(path), folder

    def write(self, name, content):
        with open(os.path.join(self.folder, name), 'wb') as file:
            file.write(content)

    def run(self, command, *names, options=()):
        """How a command on these files ends."""
        words = [self.path, command, *options, *(os.path.join(self.folder, name) for name in names)]
        return ended(words, LONGEST, close_fds=False)


# ---- what a chart has

def has_cycle(junctions):
    """Whether a junction is reached from itself."""
    return any(each in check.reached_junctions(each.transitions) for each in junctions)


def has_shared(chart):
    """Whether one junction is the destination of transitions of two lists."""
    lists = [transitions for _, _, transitions in chart.lists()] + [each.transitions for each in chart.junctions]
    leads = Counter(each for transitions in lists for each in {transition.destination for transition in transitions})
    return any(leads[each] > 1 for each in chart.junctions)


def named_blocks(chart):
    for state in chart.states:
        for kind, block in state.blocks.items():
            yield PARTS[kind], block
    for transition in chart.transitions():
        yield 'a condition action', transition.condition
        yield 'a transition action', transition.action


def features_of(chart):
    """Words for what stands in a chart."""
    found = set()
    if chart.junctions:
        found.add('a junction')
    if has_shared(chart):
        found.add('a junction that several lists lead to')
    if has_cycle(chart.junctions):
        found.add('a cycle of junctions')
    for state, kind, transitions in chart.lists():
        if check.reached_junctions(transitions):
            found.add('a junction that %s transitions reach' % kind)
    for state in chart.states:
        if state.children:
            found.add('an %s' % state.composition.upper())
        if state.history_at is not None:
            found.add('history')
    for datum in chart.data:
        if datum.scale is not None:
            found.add('a datum with the mode %s' % datum.mode)
    for part, block in named_blocks(chart):
        for statement in block:
            if isinstance(statement, check.Send):
                found.add('a send in ' + part)
                if statement.to is not chart.root:
                    found.add('a directed send')
            elif isinstance(statement, check.Emit):
                found.add('an emit')
    if not chart.junctions and not any(each.startswith('a send in') for each in found):
        found.add('no junction and no send')
    return found


def without_sends(block):
    return [statement for statement in block if not isinstance(statement, syntax.Send)]


def without_junctions(state, kind):
    """The transitions of a list that lead to states, without sends; a default list ends with one that is always taken."""
    kept = [each._replace(condition=without_sends(each.condition), action=without_sends(each.action))
            for each in state.transitions[kind] if isinstance(each.destination, syntax.ToState)]
    if kind == 'default' and len(kept) < len(state.transitions[kind]):
        path = [state.states[0].name]
        kept.append(syntax.Transition(random_charts.NOWHERE, None, None, [], [], syntax.ToState(path)))
    return kept


def make_plain(state):
    """Takes all junctions and sends out of a state and those below it."""
    state.junctions.clear()
    state.blocks = {kind: without_sends(block) for kind, block in state.blocks.items()}
    state.transitions = {kind: without_junctions(state, kind) for kind in state.transitions}
    for each in state.states:
        make_plain(each)


def bounds_of(choices):
    """A depth and a number of steps."""
    if choices.random() < 0.5:
        return DEFAULT_BOUNDS
    depth = choices.choice([1, 2, 3, 4, 8, rules.MOST_DEPTH])
    return depth, choices.choice([choices.randint(1, 40), choices.randint(1, 400), 10000, rules.MOST_STEPS])


# ---- one chart

class Comparison:
    """Compares charts and their cases, and counts what was met. The files of a difference are kept in the folder `keep`."""

    def __init__(self, program, seed, files, keep, plain=False):
        self.program, self.seed, self.files, self.keep, self.plain = program, seed, files, keep, plain
        self.charts, self.cases, self.met = Counter(), Counter(), Counter()
        self.wrong = 0

    def differ(self, name, lines, **contents):
        """Counts and writes a difference, and keeps its files."""
        if not lines:
            return
        self.wrong += 1
        keep_files(self.keep, '%s %s' % (self.seed, name), contents)
        print('\n'.join(lines), flush=True)

    def chart(self, number, most):
        """Compares all cases of a chart, at most so many, and gives how many there were."""
        choices = random.Random('compiled %s %d' % (self.seed, number))
        maker = random_charts.Maker(choices, True)
        made = maker.chart()
        if self.plain:
            make_plain(made.root)
        elif choices.random() < 0.1:
            random_charts.Changer(choices, maker, made).change()
        text = random_charts.Writer(choices).chart(made)
        self.program.write('chart', text.encode('latin-1'))
        try:
            chart = self.checked(number, made, text)
        except syntax.Fault as fault:
            self.refused(number, text, fault)
            return 0
        return self.accepted(number, text, chart, choices, most)

    def checked(self, number, made, text):
        """The checked chart. Reading the text takes long, so most charts are checked as they were made."""
        if number % ONE_IN:
            chart, faults = check.faults_of(made)
            if not faults:
                return chart
        return check.check_chart(text)

    def refused(self, number, text, fault):
        self.charts['refused'] += 1
        self.program.write('events', b'tick\n')
        expected = Ended('', fault.written(text) + '\n', 1)
        for command, *more in (('check',), ('compile',), ('rules', 'events'), ('run', 'events')):
            name = 'chart %d %s' % (number, command)
            self.differ(name, differences(name, expected, self.program.run(command, 'chart', *more)),
                        chart=text.encode('latin-1'))

    def accepted(self, number, text, chart, choices, most):
        """Compares the cases of an accepted chart, and gives how many there were."""
        self.charts['accepted'] += 1
        self.charts.update(features_of(chart))
        data = text.encode('latin-1')
        compiled = self.program.run('compile', 'chart')
        expected = Ended(compiled.out, '', 0)
        name = 'chart %d' % number
        self.differ(name, differences(name + ' compile', expected, compiled), chart=data)
        code = compiled.out.encode('latin-1')
        self.program.write('code', code)
        self.differ(name, differences(name + ' upgrade', expected, self.program.run('upgrade', 'code')), chart=data, code=code)
        with_references = number % ONE_IN == 0
        if with_references:
            self.differ(name, differences(name + ' code_text.py', expected, code_text.upgrade(code)), chart=data, code=code)
        for file in range(min(most, self.files)):
            events = random_charts.event_file(choices, chart).encode('latin-1')
            bounds = bounds_of(choices)
            stopped = self.case('%s file %d' % (name, file), text, code, events, bounds, with_references)
            if stopped and bounds == DEFAULT_BOUNDS:
                return file + 1
        return min(most, self.files)

    def case(self, name, text, code, events, bounds, with_references):
        """Compares one case, and gives whether the start ended with a fault."""
        self.program.write('events', events)
        options = [] if bounds == DEFAULT_BOUNDS else ['--depth', str(bounds[0]), '--steps', str(bounds[1])]
        expected = self.program.run('rules', 'chart', 'events', options=options)
        lines = []
        if expected.status not in RAN:
            lines.append('%s rules: %s' % (name, status_text(expected)))
        lines += differences(name + ' run', expected, self.program.run('run', 'chart', 'events', options=options))
        lines += differences(name + ' exec', expected, self.program.run('exec', 'code', 'events', options=options))
        if with_references:
            self.cases['compared with chart_rules.py and code_machine.py'] += 1
            told = rules.run_rules(text, events, *bounds, met=self.met)
            lines += differences(name + ' chart_rules.py', expected, told)
            lines += differences(name + ' code_machine.py', expected, code_machine.execute(code, events, *bounds)[0])
        self.cases['with the default bounds'] += bounds == DEFAULT_BOUNDS
        self.differ('%s %d %d' % (name, *bounds), lines, chart=text.encode('latin-1'), code=code, events=events)
        return self.count(expected)

    def count(self, answer):
        """Counts how a run ended, and gives whether its start ended with a fault."""
        self.cases['all'] += 1
        self.cases['events'] += max(0, answer.out.count('\n') - 1)
        where, _, what = answer.error.rstrip('\n').partition(': ')
        stopped = answer.status == 3 and where == 'run 0'
        if answer.status == 0:
            self.cases['ends with the file'] += 1
        elif answer.status == 1:
            self.cases['ends with a refused line: ' + what] += 1
        elif answer.status == 3:
            place = 'the start' if stopped else 'an event'
            self.cases['ends with the fault %s at %s' % (what.split(' ')[0], place)] += 1
        return stopped

    def counts(self):
        """What was met, by titles."""
        return {'charts': self.charts, 'cases': self.cases,
                'cases of the rules that chart_rules.py met': Counter({each: self.met[each] for each in rules.CASES})}


def add_options(reader):
    reader.add_argument('--against', metavar='PROGRAM', type=os.path.abspath, required=True)
    reader.add_argument('--files', metavar='K', type=int, default=USUAL_FILES)
    reader.add_argument('--plain', action='store_true')


def campaign(options, folder):
    """Compares charts; main.py calls it."""
    comparison = Comparison(Program(options.against, folder), options.seed, options.files, options.keep, options.plain)
    return Campaign(lambda number: comparison.chart(number, options.files), comparison.counts)
