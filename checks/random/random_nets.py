"""Random nets of charts over random schedules.

    python3 checks/random/main.py nets --seed S --cases N [--against PROGRAM]

A case is a net text with its chart files, a schedule, and the words of the command. The charts are taken of 400, which follow from
the seed and a number each: most are made here, so that their events and data fit those of others, and one in four is of
random_charts.py. One in forty is refused, and another one may have a fault at its start. The net text, the routes, the steps of
the schedule, the files and the words have a fault in some of the cases. Most steps are chosen while the net runs, so that most
items are taken, and some queues are full or empty.

In one case in five the run by which the steps were chosen must keep the law of nets: each chart has the trace that it has alone, by
chart_rules.py, over the events that it was given; on each route what was got is a front of what was sent; and what was sent is a
front of the values of the output that the chart emitted, one for each time.

With `--against PROGRAM` the program does `net` with these words on these files, and its answer must be that of nets.py; and where
the law is tried, `PROGRAM rules` must write the trace that each chart has alone."""
import os
import random
import re
from collections import Counter
from functools import lru_cache

import beside                                # noqa: F401, which finds the other folders of checks
import chart_check as check
import chart_rules as rules
import chart_syntax as syntax
import nets
import random_charts
from campaign import Campaign
from programs import differences, ended

LONGEST = 120               # seconds for one command
CHARTS, REFUSED, ANY_START = 400, 0, 4
ONE_IN = 5
SORTS = ('int8', 'int8', 'int8 wrap', 'uint8 wrap', 'sfix8_En4', 'bool', 'bool')
BAD_STEPS = ('EV %s', 'ev', 'take', 'ev nobody tick', 'ev # tick', 'take 0 0', 'take 00', 'take +0', 'take 64', 'take x', 'tick',
             'take 0 # x', 'ev \x80 tick', 'TAKE 0')
BAD_LINES = ('', 'c  a chart0', 'c a', 'routes 65', 'charts 0', 'flownet 2', 'c tick chart0', 'r 0 o 0 i 1 - v', 'end ', 'End',
             'r 0 o 0 i 0 - -', 'r 0 o 0 i 1025 - -', 'r 16 o 0 i 1 - -', '# net', 'c a chart\x7f', 'r 00 o 0 i 1 - -',
             'r 0 o 0 i 1 v', 'charts 2\r')


# ---- charts

def node_datum(choices, kind, name):
    return '%s %s : %s;' % (kind, name, choices.choice(SORTS))


def node_assignment(choices, inputs, outputs):
    """An assignment to an output, of a value that fits its sort."""
    name, is_flag = choices.choice(outputs)
    fitting = [each for each, other in inputs + outputs if other == is_flag] or [name]
    value = choices.choice(fitting)
    if is_flag:
        return '%s = %s%s;' % (name, choices.choice(['', '!']), value)
    return '%s = %s %s;' % (name, value, choices.choice(['+ 1', '- 1', '* 2', '+ 0.25', '+ %s' % choices.choice(fitting)]))


def node_block(choices, emits, inputs, outputs, likely):
    """A block that emits and assigns, in any order."""
    made = ['emit %s;' % choices.choice(emits) for _ in range(choices.choice([0, 1, 1, 1, 2])) if choices.random() < likely]
    if outputs:
        made += [node_assignment(choices, inputs, outputs) for _ in range(choices.choice([0, 1, 1, 2]))
                 if choices.random() < likely]
    choices.shuffle(made)
    return '{ %s }' % ' '.join(made)


def node_text(choices):
    """The text of a chart of some states whose events and data are made to fit those of others."""
    events = ['i%d' % at for at in range(choices.choice([1, 2, 2, 3]))]
    emits = ['o%d' % at for at in range(choices.choice([1, 1, 2, 3]))]
    data = [node_datum(choices, kind, '%s%d' % (first, at)) for kind, first in (('input', 'x'), ('output', 'v'))
            for at in range(choices.choice([0, 1, 2, 3]))]
    flags = [(re.split('[ ]', each)[1], 'bool' in each, each.startswith('input')) for each in data]
    inputs, outputs = ([(name, flag) for name, flag, of_inputs in flags if of_inputs == wanted] for wanted in (True, False))
    lines = ['event input %s;' % each for each in events] + ['event output %s;' % each for each in emits] + data
    choices.shuffle(lines)
    states = ['A', 'B', 'C'][:choices.choice([1, 2, 3])]
    lines.append('default -> %s;' % choices.choice(states))
    for state in states:
        lines.append('state %s {' % state)
        if choices.random() < 0.15:
            lines.append('entry ' + node_block(choices, emits, inputs, outputs, 0.7))
        if choices.random() < 0.2:
            lines.append('during ' + node_block(choices, emits, inputs, outputs, 0.5))
        for event in events:
            guard = '[%s > 0] ' % inputs[0][0] if inputs and not inputs[0][1] and choices.random() < 0.2 else ''
            lines.append('outer %s %s%s -> %s;' % (event, guard, node_block(choices, emits, inputs, outputs, 0.8),
                                                   choices.choice(states)))
        lines.append('}')
    return 'chart Node or {\n%s\n}\n' % '\n'.join(lines)


@lru_cache(maxsize=None)
def chart_text(seed, number):
    """The text of a chart by the seed and its number."""
    choices = random.Random('net chart %s %d' % (seed, number))
    if number % 4:
        return node_text(choices)
    while True:
        text = random_charts.made_text(choices, syntax.WITH_HISTORY)
        if len(text) < 20000 and (not is_accepted(text) if number % 40 == REFUSED else is_accepted(text) and (
                number % 40 == ANY_START or rules.Rules(chart_of(text)).start() == 'ok')):
            return text


@lru_cache(maxsize=None)
def chart_of(text):
    return check.check_chart(text)


def is_accepted(text):
    try:
        chart_of(text)
    except syntax.Fault:
        return False
    return True


# ---- the law of nets

class Watched(nets.Net):
    """A net that keeps what its charts were given, what was sent and got on its routes, and the lines of its charts."""

    def __init__(self, members, routes):
        super().__init__(members, routes)
        self.given = [[] for _ in members]
        self.lines = [[] for _ in members]
        self.emitted = [[] for _ in routes]                  # the values that were to be sent
        self.sent, self.got = [[] for _ in routes], [[] for _ in routes]

    def give(self, number, event, inputs):
        self.given[number].append((event, inputs))
        return super().give(number, event, inputs)

    def take(self, number):
        self.got[number] += list(self.queues[number])[:1]
        return super().take(number)

    def ended(self, number, event, result):
        before = [len(queue) for queue in self.queues]
        world = self.members[number].rules
        line, told = super().ended(number, event, result)
        for at, route in enumerate(self.routes):
            self.sent[at] += list(self.queues[at])[before[at]:]
            if route.from_ == number and result == 'ok':
                value = None if route.source is None else world.values[route.source]
                self.emitted[at] += [value] * world.outputs.count(route.emit)
        alone = line.split(' ', 2)[2]
        if told != result:
            alone = alone[:-len(told) - 1] + result + '\n'
        self.lines[number].append(alone)
        return line, told


def event_text(event, inputs):
    """The line of an event file with an event and values of inputs."""
    pairs = ['%s=%s' % (datum.name, rules.value_text(value)) for datum, value in inputs.items()]
    return ' '.join([event.name if event else 'tick'] + pairs) + '\n'


def is_front(front, whole):
    return whole[:len(front)] == front


def law_lines(net):
    """What of the law of nets doesn't hold, in words."""
    for at in range(len(net.routes)):
        if not is_front(net.got[at], net.sent[at]) or net.got[at] + list(net.queues[at]) != net.sent[at]:
            yield 'route %d: what was got is no front of what was sent' % at
        if not is_front(net.sent[at], net.emitted[at]):
            yield 'route %d: what was sent is no front of what was emitted' % at


# ---- cases

class Case:
    """A random case, by a source of random choices."""

    def __init__(self, seed, number):
        self.choices = random.Random('nets %s %d' % (seed, number))
        self.seed = seed
        self.files, self.net = {}, None
        self.words = self.some_words()
        self.write_charts()
        text = self.net_text()
        self.files['net'] = text.encode('latin-1')
        self.files['schedule'] = self.schedule().encode('latin-1')
        if self.chance(0.01):
            del self.files[self.choices.choice(sorted(self.files))]

    def chance(self, likely):
        return self.choices.random() < likely

    def some_words(self):
        """The words after `net`."""
        self.depth, self.steps = rules.DEFAULT_DEPTH, nets.MOST_STEPS
        words = ['net', 'schedule']
        if self.chance(0.3):
            self.depth, self.steps = self.choices.choice([1, 2, 8, 32]), self.choices.choice([1, 2, 3, 10, 50, 2500])
            words += ['--depth', str(self.depth), '--steps=%d' % self.steps]
        if self.chance(0.01):
            words += self.choice([['--steps', '2501'], ['--depth', '33'], ['x'], ['--steps=0'], ['--'], ['-x']])
        if self.chance(0.005):
            words[1] = self.choice(['net', 'chart0'])
        return words

    def choice(self, things):
        return self.choices.choice(things)

    # -- the net text

    def write_charts(self):
        """Writes the files of the charts, and chooses which chart of the net has which."""
        count = self.choice([1, 1, 2, 2, 2, 3, 3, 3, 4, 4, 6, 16])
        numbers = [self.choices.randrange(CHARTS) for _ in range(min(count, self.choice([1, 2, 3, 4])))]
        for at, number in enumerate(numbers):
            self.files['chart%d' % at] = chart_text(self.seed, number).encode('latin-1')
        self.chart_files = dict(self.files)                  # also of a chart whose file is taken away below
        self.places = [self.choices.randrange(len(numbers)) for _ in range(count)]
        self.names = ['c%d' % at for at in range(count)]
        if self.chance(0.02):
            self.names[-1] = self.choice(self.names)
        texts = [self.files['chart%d' % place].decode('latin-1') for place in self.places]
        self.charts = [chart_of(text) if is_accepted(text) else None for text in texts]

    def net_text(self):
        """The net text, and the net where it has no fault."""
        lines = ['flownet 1', 'charts %d' % len(self.names)]
        lines += ['c %s chart%d' % each for each in zip(self.names, self.places)]
        routes = [route for _ in range(self.choice([0, 1, 1, 2, 2, 3, 4, 6, 10, 64])) for route in self.some_route()][:64]
        text = ''.join(line + '\n' for line in [*lines, 'routes %d' % len(routes), *routes, 'end'])
        if self.chance(0.08):
            text = self.damaged(text)
        self.net = self.net_of(text)
        return text

    def net_of(self, text):
        """The net of a text, about to start, or None where it is refused."""
        files = {**self.files, 'net': text.encode('latin-1')}
        try:
            net = nets.made_net('net', nets.Files(nets.reader(files)), self.depth, self.steps, chart_of)
        except (nets.Refused, OSError):
            return None
        return Watched(net.members, net.routes)

    def some_route(self):
        """The line of a route, or none where the charts have no ends for it."""
        from_, to = self.choices.randrange(len(self.charts)), self.choices.randrange(len(self.charts))
        if self.charts[from_] is None or self.charts[to] is None:
            return
        emits = self.named(self.charts[from_].events, 'output')
        events = self.named(self.charts[to].events, 'input')
        if not emits or not events:
            return
        pairs = [('-', '-')] + 3 * [(source.name, target.name) for source in self.charts[from_].data if source.kind == 'output'
                                    for target in self.charts[to].data
                                    if target.kind == 'input' and source.scale == target.scale]
        pair = self.choice(pairs)
        fields = [str(from_), self.choice(emits), str(to), self.choice(events), str(self.choice([1, 2, 3, 4, 8, 8, 1024])), *pair]
        if self.chance(0.01):
            fields[self.choice([1, 3, 5, 6])] = self.choice(
                [each.name for each in self.charts[from_].events + self.charts[to].data + self.charts[from_].data] + ['nobody'])
        yield 'r ' + ' '.join(fields)

    @staticmethod
    def named(things, kind):
        return [each.name for each in things if each.kind == kind]

    def damaged(self, text):
        """A net text with a fault, most likely."""
        lines = text.split('\n')[:-1]
        at = self.choices.randrange(len(lines))
        way = self.choices.randrange(8)
        if way == 0:
            return text[:self.choices.randrange(len(text))]
        if way == 1:
            return text + self.choice(['x', '\n', 'end\n', ' '])
        if way == 2:
            return text + '#' * (nets.LONGEST_NET - len(text) + self.choice([0, 1, 1, 1]))
        if way in (3, 4):
            lines[at] = self.choice(BAD_LINES)
        elif way == 5:
            del lines[at]
        elif way == 6:
            lines.insert(at, self.choice(lines))
        else:
            place = self.choices.randrange(len(text))
            return text[:place] + self.choice([' ', '0', '\n', '-', '\t', '\x80', 'x', '']) + text[place + self.choice([0, 1]):]
        return ''.join(line + '\n' for line in lines)

    # -- the schedule

    def schedule(self):
        """A schedule. Its lines are chosen while the net runs, and some follow that are never come to."""
        self.wrong = self.choice([0, 0, 0, 0.02, 0.05])
        result = 'ok'
        lines = []
        if self.net is not None:
            for number in range(len(self.net.members)):
                result = self.net.start(number)[1] if result == 'ok' else result
        for _ in range(self.choice([0, 1, 3, 6, 12, 20, 30, 40])):
            line = self.some_line()
            lines.append(line + self.choice(['\n', '\n', '\n', '\r\n']))
            if result == 'ok' and self.net is not None:
                result = self.done(line)
            if result != 'ok' and self.chance(0.5):
                break
        text = ''.join(lines)
        return text[:-1] if self.chance(0.1) else text

    def done(self, line):
        """Does the step of a line, and gives its result, or `refused`."""
        tokens = rules.tokens_of(line.encode('latin-1'))
        if len(line) > rules.LONGEST_LINE:
            return 'refused'
        if rules.is_skipped(tokens):
            return 'ok'
        try:
            return nets.step_of(self.net, tokens)()[1]
        except rules.LineFault:
            return 'refused'

    def some_line(self):
        if self.chance(0.03):
            return self.choice(['', ' ', '#', '# take 0', '\t#ev', '   # x'])
        if self.chance(self.wrong):
            return self.wrong_line()
        if self.net is not None and self.net.routes and self.chance(0.7):
            filled = [at for at, queue in enumerate(self.net.queues) if queue]
            if filled or self.chance(0.03):
                fullest = [at for at in filled if len(self.net.queues[at]) == self.net.routes[at].cap]
                near = fullest if fullest and self.chance(0.6) else filled
                return 'take %d' % self.choice(near if near and self.chance(0.98) else range(len(self.net.routes)))
        return self.event_line(0)

    def event_line(self, wrong):
        at = self.choices.randrange(len(self.names))
        if self.charts[at] is None:
            return 'ev %s tick' % self.names[at]
        line = random_charts.event_line(self.choices, self.charts[at], wrong)
        is_skipped = rules.is_skipped(rules.tokens_of(line.encode('latin-1')))
        return 'ev %s %s' % (self.names[at], 'tick' if is_skipped and not wrong else line)

    def wrong_line(self):
        """A line that is refused, most likely."""
        way = self.choices.randrange(4)
        if way == 0:
            bad = self.choice(BAD_STEPS)
            return bad % self.names[0] if '%' in bad else bad
        if way == 1 and self.chance(0.3):
            return self.choice(['#', 'ev c0 tick ', 'x']).ljust(rules.LONGEST_LINE + self.choice([0, 1]), self.choice(' x'))
        return self.event_line(0.9)


# ---- trying

def kind_of(answer):
    """What an answer is, in a few words."""
    error = re.sub('[0-9]+:[0-9]+|[0-9]+(?=:)', 'N', answer.error.rstrip('\n'))
    if answer.status == 2:
        return 'status 2'
    error = re.sub('chart c[0-9]+ .*', 'a chart is refused', error)
    error = re.sub('(run N: (?:full|empty|overflow)).*', r'\1', error)
    error = error.replace('run N', 'run 0') if answer.error.startswith('run 0:') else error
    return 'status %d %s' % (answer.status, error)


class Comparison:
    """Tries cases, and counts what was met."""

    def __init__(self, program, seed, keep, folder):
        self.program, self.seed, self.keep, self.folder = program, seed, keep, folder
        self.cases, self.runs = Counter(), Counter()

    def differ(self, number, lines, files):
        """Writes what is wrong, and keeps its files."""
        if not lines:
            return
        where = os.path.join(self.keep, 'net %s %d' % (self.seed, number))
        os.makedirs(where, exist_ok=True)
        self.write(where, files)
        print('\n'.join(lines), flush=True)

    @staticmethod
    def write(folder, files):
        for name, data in files.items():
            with open(os.path.join(folder, name), 'wb') as file:
                file.write(data)

    def run(self, words, files):
        """How the program ends on these files."""
        for name in os.listdir(self.folder):
            os.unlink(os.path.join(self.folder, name))
        self.write(self.folder, files)
        return ended([self.program, *words], LONGEST, cwd=self.folder, close_fds=False)

    def case(self, number):
        """Tries one case."""
        made = Case(self.seed, number)
        expected = nets.answer(made.words, nets.reader(made.files), chart_of)
        self.cases[kind_of(expected)] += 1
        self.runs['lines of traces'] += expected.out.count('\n')
        lines = []
        if self.program:
            lines = differences('case %d' % number, expected, self.run(['net', *made.words], made.files))
        if made.net is not None:
            self.count(made.net)
            if number % ONE_IN == 0:
                lines += list(law_lines(made.net)) + self.alone_lines(number, made)
        self.differ(number, lines, {**made.files, 'words': ' '.join(made.words).encode()})

    def count(self, net):
        """Counts what a net did in the run by which its schedule was chosen."""
        self.runs['nets'] += 1
        self.runs['charts'] += len(net.members)
        self.runs['routes'] += len(net.routes)
        self.runs['steps'] += net.step
        self.runs['items sent'] += sum(len(sent) for sent in net.sent)
        self.runs['items taken'] += sum(len(got) for got in net.got)
        self.runs['items with a value taken'] += sum(value is not None for got in net.got for value in got)
        self.runs['charts that send to themselves'] += any(route.from_ == route.to for route in net.routes)

    def alone_lines(self, number, made):
        """Where a chart has another trace alone than in the net."""
        wrong = []
        for at, member in enumerate(made.net.members):
            if not made.net.lines[at]:
                continue                                     # a chart that wasn't started
            events = ''.join(event_text(*each) for each in made.net.given[at])
            if max(map(len, re.findall('[0-9.]+', events) + [''])) > syntax.MOST_DIGITS:
                continue                                     # no event file has this value
            told = ''.join(made.net.lines[at])
            alone = rules.run_events(rules.Rules(member.rules.chart, made.depth, made.steps), events.encode('latin-1'))
            self.runs['charts that were run alone'] += 1
            if alone.out != told:
                wrong.append('case %d: chart %d has another trace alone' % (number, at))
            if self.program:
                files = {'chart': made.chart_files['chart%d' % made.places[at]], 'events': events.encode('latin-1')}
                options = ['--depth', str(made.depth), '--steps', str(made.steps)]
                wrong += differences('case %d, chart %d alone' % (number, at), alone,
                                     self.run(['rules', 'chart', 'events', *options], files))
        return wrong


def add_options(reader):
    reader.add_argument('--against', metavar='PROGRAM', type=os.path.abspath)


def campaign(options, folder):
    """Tries nets; main.py calls it."""
    comparison = Comparison(options.against, options.seed, options.keep, folder)
    return Campaign(comparison.case, lambda: {'answers': comparison.cases, 'runs': comparison.runs})
