#!/usr/bin/env python3
r"""Runs a net of charts over a schedule by the rules of the language alone, as plainly as they can be said.

    python3 checks/reference/nets.py NET SCHEDULE [--depth D] [--steps S]     writes what `flowc net NET SCHEDULE` writes
    python3 checks/reference/nets.py --table [--check] [--large] < checks/tables/net_table.txt
    python3 checks/reference/nets.py --against PROGRAM [--large] < checks/tables/net_table.txt

The first form writes what the command `net` writes, with the same line on standard error and the same status. The depth is 1 to
32, by default 8, and the steps are 1 to 2,500, by default 2,500; they are the bounds of the start and of each event of each chart.

Net text
    The lines end with byte 10. Fields are separated by one space, and numbers are decimal without leading zeros.

        flownet 1
        charts N                            N is 1 to 16
        c NAME FILE                         N lines; FILE is 1 to 255 bytes, each of them 33 to 126
        routes M                            M is 0 to 64
        r FROM EVENT TO EVENT CAP SRC DST   M lines; FROM and TO are below N, and CAP is 1 to 1,024
        end

    NAME, both EVENTs, SRC and DST are names as in charts, and no reserved words; but SRC and DST may both be `-`. Charts and
    routes are counted from 0. The refusals come in this order:

    net: 6 TextTooLong      over 65,536 bytes
    net L: 1 BadLine        the first line with its byte 10 that can't stand there by this form
    net: 2 Truncated        every line with its byte 10 can stand there, and the text ends before `end` and its byte 10
    net L: 3 Trailing       a byte comes after the line `end`; L is the line after it
    net L: 5 NameTwice      the first line `c` with the name of an earlier chart
    chart NAME ..           a chart is refused by `check`; NAME is its name in the net. The charts are judged in order.
    net L: 4 BadRoute       the first line `r` of which one of these doesn't hold: the first EVENT is an output event of the chart
                            FROM; the second is an input event of TO; SRC is an output datum of FROM and DST an input datum of
                            TO, or both are `-`; the two data are both flags, or numbers of one scale. Their modes don't count.

Schedule
    Lines, tokens, skipped lines and limits are those of an event file (chart_rules.py). A step is `ev NAME` and the tokens of an
    event line for the chart NAME; or `take R`, where R is the number of a route, without leading zeros. 8 BadStep is the fault of
    any other line. 1 LineTooLong comes before it. The faults 2 to 6 of an event line come after it, by the tokens after the name
    of the chart.

    It is a BadStep where the first token is neither `ev` nor `take`; where `ev` isn't followed by the name of a chart and one
    more token that doesn't begin with `#`; and where `take` isn't followed by one token and no more, the number of a route.

Run
    Each route has a queue of at most CAP items, the oldest first. The charts are started in order. Then come the steps. An `ev`
    gives the chart its event as in a run of that chart alone. A `take` takes the oldest item of a route, sets DST to its value,
    where there is one, and gives the chart TO the second EVENT; its other inputs keep their values.

    After a start or an event whose result is `ok`, what was emitted is sent: each emitted event, in order, on each route from
    this chart with that event, in the order of the routes. An item has the value that SRC has then, or none. Where a queue already
    has CAP items when one is to be sent, the result is `full R` in place of `ok`, and nothing more is sent. A chart that has a
    fault sends nothing.

Trace
    A line for each start and each step: the number of the step, which is 0 for a start, the name of the chart, and its trace
    line, with the number of the events of that chart. Where `take R` finds an empty queue the line is `STEP empty R`. The trace
    ends after the first line whose result isn't `ok`; then the status is 3, and `run STEP: RESULT` is on standard error, with
    `empty R` and `full R` as results. So after a start that isn't `ok` no other chart is started.

Files
    NET is read first. A FILE is a name of a file as in the words of the command. Each is read and judged before the next one is,
    and one that an earlier line names isn't read again. The schedule is read after the starts. The bytes of a file are given
    once, so that one of these names in another place, as that of NET as the schedule, has nothing left. A file that can't be read
    ends all with `read fault` and status 4, after the lines of the trace up to there.

A table has the form of tables.py, in blocks. Their parts:

    words WORD ..       The words after `net`, and `net schedule` where nothing is said.
    like BLOCK          The files of that block but its schedule.
    charts BLOCK        The files of that block but its schedule and its net.
    net TEXT            A line of the file `net`.
    line N TEXT         Line N of the file `net` is this one instead.
    cut N               The file `net` loses its last N bytes.
    step TEXT           A line of the file `schedule`, which is there in any case.
    file NAME TEXT      A line of the file NAME.
    bytes NAME TEXT     The file goes on with these bytes, without an end of a line.
    times NAME N TEXT   The file goes on with these bytes, N times.
    missing NAME        There is no such file.
    large               The block takes many seconds, and is run with `--large` alone.

An answer has the lines `out TEXT` for each line of standard output, or `out N lines` and the last of them where there are more
than 20, `error TEXT` for each line of standard error, and `status N`. With `--against PROGRAM` nothing is answered: PROGRAM does
`net` on the files, and where that isn't the answer worked out by hand or not that of this program, it is written and the status
is 1."""
import re
import sys
from collections import deque, namedtuple

import chart_rules as rules
import tables
from chart_check import check_chart
from chart_rules import LINE_FAULTS, LineFault
from chart_syntax import LONGEST_NAME, RESERVED, Fault
from programs import LONGEST, Ended, differences, run

LONGEST_NET = 65536
MOST_STEPS = 2500
MOST_CHARTS, MOST_ROUTES, MOST_ITEMS = 16, 64, 1024
LONGEST_FILE_NAME = 255
NET_FAULTS = {1: 'BadLine', 2: 'Truncated', 3: 'Trailing', 4: 'BadRoute', 5: 'NameTwice', 6: 'TextTooLong'}
BAD_STEP = 8
STEP_FAULTS = {**LINE_FAULTS, BAD_STEP: 'BadStep'}
READ_FAULT = 'read fault\n'
NO_DATUM = '-'
MOST_SHOWN = 20

# A chart of a net text, and a route with its line. The data are None where they are `-`.
NetChart = namedtuple('NetChart', 'line name file')
RouteText = namedtuple('RouteText', 'line from_ emit to event cap source target')
# A route whose names were looked up: the numbers of its charts, its events and data, and how many items its queue may have.
Route = namedtuple('Route', 'from_ emit to event cap source target')


class Refused(Exception):
    """What the program says of a net or of a chart in it; the text is the line on standard error."""


def net_refusal(number, line=None):
    return Refused('net%s: %d %s\n' % ('' if line is None else ' %d' % line, number, NET_FAULTS[number]))


# ---- the net text

def is_name(field):
    return (re.fullmatch('[A-Za-z][A-Za-z0-9_]*', field) is not None and len(field) <= LONGEST_NAME
            and field not in RESERVED)


def is_file_name(field):
    return 1 <= len(field) <= LONGEST_FILE_NAME and all('!' <= byte <= '~' for byte in field)


def is_number(field, least, most):
    return re.fullmatch('0|[1-9][0-9]*', field) is not None and least <= int(field) <= most


class NetLines:
    """The lines of a net text, taken one by one. The text has a character for each byte."""

    def __init__(self, text):
        *self.whole, self.rest = text.split('\n')
        self.number = 0                                      # of the line that was taken last

    def fields(self, word, count):
        """The fields after the word of the next line, which must be so many."""
        if self.number == len(self.whole):
            raise net_refusal(2)
        self.number += 1
        first, *fields = self.whole[self.number - 1].split(' ')
        self.need(first == word and len(fields) == count)
        return fields

    def need(self, holds):
        if not holds:
            raise net_refusal(1, self.number)

    def counted(self, word, least, most):
        """The number of the next line, which has nothing else after its word."""
        field, = self.fields(word, 1)
        self.need(is_number(field, least, most))
        return int(field)

    def chart(self):
        name, file = self.fields('c', 2)
        self.need(is_name(name) and is_file_name(file))
        return NetChart(self.number, name, file)

    def route(self, charts):
        """The route of the next line, in a net of so many charts."""
        from_, emit, to, event, cap, source, target = self.fields('r', 7)
        self.need(is_number(from_, 0, charts - 1) and is_number(to, 0, charts - 1) and is_number(cap, 1, MOST_ITEMS))
        self.need(is_name(emit) and is_name(event))
        has_no_data = source == target == NO_DATUM
        self.need(has_no_data or is_name(source) and is_name(target))
        data = (None, None) if has_no_data else (source, target)
        return RouteText(self.number, int(from_), emit, int(to), event, int(cap), *data)

    def end(self):
        """The last line, after which no byte may come."""
        self.fields('end', 0)
        if self.number < len(self.whole) or self.rest:
            raise net_refusal(3, self.number + 1)


def read_net(text):
    """The charts and the routes of a net text; what stands in the charts isn't asked."""
    if len(text) > LONGEST_NET:
        raise net_refusal(6)
    lines = NetLines(text)
    version, = lines.fields('flownet', 1)
    lines.need(version == '1')
    charts = [lines.chart() for _ in range(lines.counted('charts', 1, MOST_CHARTS))]
    routes = [lines.route(len(charts)) for _ in range(lines.counted('routes', 0, MOST_ROUTES))]
    lines.end()
    names = set()
    for chart in charts:
        if chart.name in names:
            raise net_refusal(5, chart.line)
        names.add(chart.name)
    return charts, routes


# ---- names looked up

def found(things, name, kind):
    """The event or the datum with that name and of that kind, or None."""
    return next((each for each in things if each.name == name and each.kind == kind), None)


def route_of(text, charts):
    """The route of a line, by the charts of the net; or None, where its names break a rule."""
    emit = found(charts[text.from_].events, text.emit, 'output')
    event = found(charts[text.to].events, text.event, 'input')
    if emit is None or event is None:
        return None
    source = target = None
    if text.source is not None:
        source = found(charts[text.from_].data, text.source, 'output')
        target = found(charts[text.to].data, text.target, 'input')
        if source is None or target is None or source.scale != target.scale:
            return None
    return Route(text.from_, emit, text.to, event, text.cap, source, target)


def routes_of(texts, charts):
    made = []
    for text in texts:
        route = route_of(text, charts)
        if route is None:
            raise net_refusal(4, text.line)
        made.append(route)
    return made


# ---- the net as it runs

class Member:
    """A chart of a net: its name, its world, and how many events it had."""

    def __init__(self, name, chart, depth, steps):
        self.name, self.rules, self.index = name, rules.Rules(chart, depth, steps), 0

    def line(self, event, result):
        return '%s %s' % (self.name, rules.trace_line(self.rules, self.index, event, result))


class Net:
    """The charts of a net, its routes with their queues, and how many steps were done."""

    def __init__(self, members, routes):
        self.members, self.routes, self.step = members, routes, 0
        self.queues = [deque() for _ in routes]

    def start(self, number):
        """Starts a chart. Gives its line of the trace and the result."""
        member = self.members[number]
        return self.ended(number, 'start', member.rules.start())

    def give(self, number, event, inputs):
        """Does a step: gives a chart an event, which is None for a tick, with the values of some inputs."""
        self.step += 1
        member = self.members[number]
        member.index += 1
        return self.ended(number, event.name if event else 'tick', member.rules.react(event, inputs))

    def take(self, number):
        """Does a step: gives a chart the oldest item of a route."""
        if not self.queues[number]:
            self.step += 1
            result = 'empty %d' % number
            return '%d %s\n' % (self.step, result), result
        route, value = self.routes[number], self.queues[number].popleft()
        return self.give(route.to, route.event, {} if route.target is None else {route.target: value})

    def ended(self, number, event, result):
        """What comes after a start or an event of a chart: it sends where that was `ok`. Gives the line and the result."""
        if result == 'ok':
            result = self.send(number)
        return '%d %s' % (self.step, self.members[number].line(event, result)), result

    def send(self, number):
        """Sends what a chart emitted, and gives the result."""
        world = self.members[number].rules
        for emitted in world.outputs:
            for at, route in enumerate(self.routes):
                if route.from_ != number or route.emit is not emitted:
                    continue
                if len(self.queues[at]) == route.cap:
                    return 'full %d' % at
                self.queues[at].append(None if route.source is None else world.values[route.source])
        return 'ok'


# ---- the schedule

def step_of(net, tokens):
    """What a line of a schedule asks for: a function without parameter that does the step."""
    if tokens[0] == 'ev':
        number = next((at for at, member in enumerate(net.members) if tokens[1:2] == [member.name]), None)
        if number is None or rules.is_skipped(tokens[2:]):
            raise LineFault(BAD_STEP)
        event, inputs = rules.event_of(net.members[number].rules.chart, tokens[2:])
        return lambda: net.give(number, event, inputs)
    if tokens[0] != 'take' or len(tokens) != 2 or not is_number(tokens[1], 0, len(net.routes) - 1):
        raise LineFault(BAD_STEP)
    return lambda: net.take(int(tokens[1]))


def steps_of(net, data):
    """The steps of a schedule, up to its end or to where it is refused."""
    for number, line, start in rules.lines_of(data):
        try:
            tokens = rules.tokens_at(data, line, start)
            if rules.is_skipped(tokens):
                continue
            step = step_of(net, tokens)
        except rules.FileTooLong:
            raise Refused(rules.FILE_TOO_LONG)
        except LineFault as fault:
            raise Refused('event %d: %d %s\n' % (number, fault.number, STEP_FAULTS[fault.number]))
        if net.step == rules.MOST_EVENTS:
            raise Refused(rules.TOO_MANY_LINES)
        yield step


# ---- a whole run

class Files:
    """The files, whose bytes are given once."""

    def __init__(self, read):
        self.read, self.given = read, set()

    def whole(self, name):
        """What is left of a file: all of it, or nothing."""
        if name in self.given:
            return b''
        self.given.add(name)
        return self.read(name)


def made_net(name, files, depth, steps, chart_of=check_chart):
    """The net that a file tells, about to start. `chart_of` gives the chart of a text, or raises its fault."""
    charts, routes = read_net(files.whole(name).decode('latin-1'))
    made = {}                                                # by the name of its file
    for each in charts:
        if each.file not in made:
            made[each.file] = accepted(each.name, files.whole(each.file).decode('latin-1'), chart_of)
    members = [Member(each.name, made[each.file], depth, steps) for each in charts]
    return Net(members, routes_of(routes, [member.rules.chart for member in members]))


def accepted(name, text, chart_of):
    """The chart of a text, which the net calls by that name."""
    try:
        return chart_of(text)
    except Fault as fault:
        kind, refusal = fault.written(text).split(' ', 1)
        raise Refused('%s %s %s\n' % (kind, name, refusal))


def run_net(net, files, schedule):
    """How the run of a net ends that is about to start."""
    out = []
    try:
        for number in range(len(net.members)):
            line, result = net.start(number)
            out.append(line)
            if result != 'ok':
                return Ended(''.join(out), 'run 0: %s\n' % result, 3)
        for step in steps_of(net, files.whole(schedule)):
            line, result = step()
            out.append(line)
            if result != 'ok':
                return Ended(''.join(out), 'run %d: %s\n' % (net.step, result), 3)
    except Refused as refused:
        return Ended(''.join(out), str(refused), 1)
    except OSError:
        return Ended(''.join(out), READ_FAULT, 4)
    return Ended(''.join(out), '', 0)


def answer(words, read, chart_of=check_chart):
    """The answer of the command to the words after `net`, where `read` gives the bytes of a file."""
    known = rules.words_of(words, MOST_STEPS, MOST_STEPS)
    if known is None:
        return Ended('', rules.USAGE + '\n', 2)
    (name, schedule), depth, steps = known
    files = Files(read)
    try:
        net = made_net(name, files, depth, steps, chart_of)
    except Refused as refused:
        return Ended('', str(refused), 1)
    except OSError:
        return Ended('', READ_FAULT, 4)
    return run_net(net, files, schedule)


# ---- the table

def split(rest):
    name, _, text = rest.partition(' ')
    return name, text


# The parts with which a file goes on: its name and the bytes.
APPENDED = {'net': lambda rest: ('net', tables.unescaped(rest) + b'\n'),
            'step': lambda rest: ('schedule', tables.unescaped(rest) + b'\n'),
            'file': lambda rest: (split(rest)[0], tables.unescaped(split(rest)[1]) + b'\n'),
            'bytes': lambda rest: (split(rest)[0], tables.unescaped(split(rest)[1])),
            'times': lambda rest: (split(rest)[0], tables.times(split(rest)[1]))}


def with_line(data, number, text):
    """A text in which the line of that number is another one."""
    lines = data.split(b'\n')
    lines[int(number) - 1] = tables.unescaped(text)
    return b'\n'.join(lines)


class Blocks:
    """The files of the blocks so far."""

    def __init__(self):
        self.earlier = {}

    def files(self, block):
        """The bytes of the files of a block, by their names."""
        files = {'schedule': b''}
        for word, rest in block.parts:
            self.add(files, word, rest)
        self.earlier[block.name] = files
        return files

    def add(self, files, word, rest):
        """Does what a part says of the files."""
        if word in APPENDED:
            name, data = APPENDED[word](rest)
            files[name] = files.get(name, b'') + data
        elif word in ('like', 'charts'):
            left = ('schedule',) if word == 'like' else ('schedule', 'net')
            files.update({name: data for name, data in self.earlier[rest].items() if name not in left})
        elif word == 'line':
            files['net'] = with_line(files['net'], *split(rest))
        elif word == 'cut':
            files['net'] = files['net'][:-int(rest)]
        elif word == 'missing':
            del files[rest]
        elif word not in ('words', 'large'):
            raise SystemExit('no part of a block: %s %s' % (word, rest))


def words_of(block):
    return (block.values('words') or ['net schedule'])[0].split(' ')


def reader(files):
    """What reads a file of a block."""
    def read(name):
        if name not in files:
            raise FileNotFoundError(name)
        return files[name]
    return read


def answer_lines(ended):
    """An answer in the short form of the table."""
    lines = ['out ' + line for line in ended.out.split('\n')[:-1]]
    if len(lines) > MOST_SHOWN:
        lines = ['out %d lines' % len(lines), lines[-1]]
    return lines + ['error ' + line for line in ended.error.split('\n')[:-1]] + ['status %s' % ended.status]


def is_left(block, large):
    """Whether a block is passed over."""
    return not large and any(word == 'large' for word, _ in block.parts)


def wrong_lines(block, files, program):
    """Where the program's answer to a block is another one than that of this program or the one worked out by hand."""
    told = run(program, ['net', *words_of(block)], files, LONGEST)
    lines = differences(block.name, answer(words_of(block), reader(files)), told)
    by_hand = answer_lines(told)
    if by_hand != block.expected:
        lines.append('%s: by hand %r, written %r' % (block.name, block.expected, by_hand))
    return lines


def compare_table(program, large):
    """Writes where the program's answers to a table are wrong. Gives the status."""
    earlier, wrong = Blocks(), []
    for block in tables.blocks(sys.stdin.buffer):
        files = earlier.files(block)
        wrong += [] if is_left(block, large) else wrong_lines(block, files, program)
    sys.stdout.writelines(line + '\n' for line in wrong)
    return 1 if wrong else 0


def answer_table(check, large):
    """Writes the answers of a table, or with `check` where they differ from those worked out by hand. Gives the status."""
    earlier = Blocks()

    def answered(block):
        return answer_lines(answer(words_of(block), reader(earlier.files(block))))

    def is_left_out(block):
        earlier.files(block)                                # later blocks may take files of this one
        return is_left(block, large)
    return tables.answer_table(sys.stdin.buffer, answered, check, is_left_out)


def read_file(name):
    with open(name, 'rb') as file:
        return file.read()


def main(words):
    """Does what the words ask for, and gives the status."""
    large = '--large' in words[1:]
    rest = [word for word in words if word != '--large']
    if rest in (['--table'], ['--table', '--check']):
        return answer_table('--check' in rest, large)
    if rest[:1] == ['--against'] and len(rest) == 2:
        return compare_table(rest[1], large)
    ended = answer(words, read_file)
    sys.stdout.write(ended.out)
    sys.stderr.write(ended.error)
    return ended.status


if __name__ == '__main__':
    sys.exit(rules.with_deep_calls(lambda: main(sys.argv[1:])))
