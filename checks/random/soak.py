#!/usr/bin/env python3
r"""Runs random cases through all commands of a built program for a given time, and compares the answers with each other.

    python3 checks/random/soak.py --against PROGRAM [--chart-to-c CHART_TO_C] [--minutes T] [--seed S] [--first M] [--cases N]
                           [--longest L] [--keep FOLDER]

T is 60 where nothing is said. A case follows from the seed and its own number alone, so that `--first M --cases 1` runs case M
again. It is one of these:

    chart           A random chart with event files and bounds, as in random_compiled.py: `rules`, `run`, and `exec` of what
                    `compile` writes must have the same answer, and `upgrade` must leave that code as it is.
    code            A random code, often with a fault, and an event file, as in random_codes.py: `exec` and `upgrade` must refuse
                    it alike, and `exec` must have the same answer for what `upgrade` writes.
    hostile chart   The bytes of a chart are changed, cut, doubled or mixed with others: `check`, `fmt`, `compile`, `rules` and
                    `run` must refuse it alike; where it is accepted, `fmt` must give a text that `fmt` leaves as it is and that
                    has the same counts, code of the same traces, and the traces are compared as above. With CHART_TO_C its
                    `header` and `source` must refuse it alike too, and where it is accepted c_runs.py runs the C, whose trace
                    must be the same. c_runs.py and random_chart_c.py do that for random charts.
    hostile code    The same of a code text.
    hostile events  The same of an event file.
    net             A random net of charts with a schedule, as in random_nets.py: the trace must keep the law of nets, as net_law.py
                    has it; `rules`, `run` or `exec` must write the trace that each chart has in the net over what it took; and
                    a chart or a line of an event must be refused as these commands refuse it.
    hostile net     The same of a net where the bytes of the net text, of the schedule or of a chart are changed.
    words           A random list of words: the usage line comes exactly where they ask for no command, by the readers of words
                    of chart_rules.py and code_machine.py; all else has the answer of the same words in the plainest form.

For one case in ten, of charts one in twenty, the references chart_check.py, chart_rules.py, code_text.py, code_machine.py and
nets.py must answer alike. Each answer of each call must be one that answers.py allows. A call may use L seconds of processor
time, 60 where nothing is said, and so much memory: 32 MiB, 400 bytes for each byte of a chart and 64 for each byte of a code
text, and for `exec`, `run` and each chart of a net room for the frames of its bounds, (steps + 1) * (height + 1) * 32 bytes,
where the height is 200 or 87; for the C of a chart it is 1 GiB. A program that can't begin with 1 GiB, such as one built with
a sanitizer, runs without that limit.

A line is written for each difference, whose files are kept in FOLDER, and at the end a summary. The status is 1 where anything
differed."""
import os
import random
import re
import resource
import subprocess
import sys
import tempfile
import time
from collections import Counter
from typing import NamedTuple

import beside                                # noqa: F401, which finds the other folders of checks
import answers
import c_runs
import chart_check as check
import chart_rules as rules
import chart_syntax as syntax
import code_acceptance as ca
import code_machine as cm
import code_text as ct
import net_law
import nets
import random_charts
import random_codes
import random_compiled
import random_nets
from demands import Wrong
from campaign import Campaign
from programs import Ended, differences, parser, print_counts, waited

KINDS = {'chart': 6, 'code': 4, 'hostile chart': 4, 'hostile code': 3, 'hostile events': 3, 'net': 4, 'hostile net': 3, 'words': 3}
ONE_IN = 10
MIB = 1 << 20
CHART_HEIGHT = 87
LAST_READER_FAULT = 8       # the faults up to this one are those of `fmt` too
ODD_BYTES = b'\0\n\r\t #/{}[]()@=-+*<>!&|;:,.q\x7f\x80\xff09azAZ_'


# ---- the program under limits

class Measured(random_compiled.Program):
    """The program under limits, and `chart_to_c`, where it is given. Calls, statuses, time and memory are counted, and what is no
    answer at all."""

    def __init__(self, path, folder, longest, chart_to_c=None):
        super().__init__(path, folder)
        self.chart_to_c = chart_to_c and os.path.abspath(chart_to_c)
        self.longest = longest
        self.limited = answers.begins(self.path, 1 << 30)
        self.calls, self.seconds, self.memory, self.bad = Counter(), Counter(), Counter(), []
        self.may_fail = ()                                  # the statuses of failures that may come

    def size(self, name):
        try:
            return os.path.getsize(os.path.join(self.folder, name))
        except OSError:
            return 0

    def read(self, name):
        with open(os.path.join(self.folder, name), 'rb') as file:
            return file.read()

    def most_memory(self, command, names, options):
        """How much memory a call may have."""
        if command == 'net':
            return self.most_of_net(names[0], options)
        if command in answers.C_COMMANDS:
            return 1024 * MIB
        first = self.size(names[0]) if names else 0
        most = 32 * MIB + first * (64 if command in answers.WITH_CODE else 400)
        if command in ('exec', 'run'):
            steps = int(options[options.index('--steps') + 1]) if '--steps' in options else rules.DEFAULT_STEPS
            most += (steps + 1) * ((ca.MOST_HEIGHT if command == 'exec' else CHART_HEIGHT) + 1) * 32
        return most

    def most_of_net(self, name, options):
        """How much memory a net may have, by the charts that its text seems to have."""
        most = 32 * MIB
        if os.path.isfile(os.path.join(self.folder, name)):
            with open(os.path.join(self.folder, name), 'rb') as file:
                charts = re.findall(b'^c [^ \n]+ ([!-~]+)$', file.read(nets.LONGEST_NET + 1), re.MULTILINE)[:nets.MOST_CHARTS]
            steps = int(options[options.index('--steps') + 1])
            most += sum(400 * self.size(chart.decode('ascii')) + (steps + 1) * (CHART_HEIGHT + 1) * 32 for chart in charts)
        return most

    def run(self, command, *names, options=()):
        words = [command, *options, *(os.path.join(self.folder, name) for name in names)]
        memory = self.most_memory(command, names, options) if self.limited else None
        return self.call(words, memory, command)

    def call(self, words, memory, command):
        """How a call ends. `command` is None where the words ask for none."""
        def limit():
            resource.setrlimit(resource.RLIMIT_CPU, (self.longest, self.longest + 1))
            if memory is not None:
                resource.setrlimit(resource.RLIMIT_AS, (memory, memory))

        names = [os.path.join(self.folder, name) for name in ('standard output', 'standard error')]
        with open(names[0], 'wb') as out, open(names[1], 'wb') as error:
            program = self.chart_to_c if command in answers.C_COMMANDS else self.path
            process = subprocess.Popen([program, *words], stdin=subprocess.DEVNULL, stdout=out, stderr=error, cwd=self.folder,
                                       preexec_fn=limit)
            status, used, timed_out = waited(process, 10 * self.longest)
        texts = []
        for name in names:
            with open(name, 'rb') as file:
                texts.append(file.read().decode('latin-1'))
        self.count(command or 'no command', status, used)
        answer = Ended(*texts, status, timed_out)
        found = answers.problem(command, answer)
        if status in (4, 5, 6) and status not in self.may_fail and command is not None and found is None:
            found = 'status %d where nothing failed' % status
        if found:
            self.bad.append('%s: %s' % (' '.join(map(repr, words)), found))
        return answer

    def count(self, command, status, used):
        self.calls[command, status] += 1
        self.seconds[command] = max(self.seconds[command], used.ru_utime + used.ru_stime)
        self.memory[command] = max(self.memory[command], used.ru_maxrss)


# ---- hostile bytes

class Spot(NamedTuple):
    """A place in some bytes: those before it, those at it, which may be none, and those after it."""
    before: bytes
    at: bytes
    after: bytes


def odd_byte(choices):
    return bytes([choices.choice(ODD_BYTES)])


def put_byte(choices, spot, _other):
    return spot.before + odd_byte(choices) + spot.at + spot.after


def other_byte(choices, spot, _other):
    return spot.before + odd_byte(choices) + (spot.at + spot.after)[1:]


def taken_away(_choices, spot, _other):
    return spot.before + spot.after


def repeated(choices, spot, _other):
    return spot.before + spot.at * choices.choice([2, 2, 3, 100]) + spot.after


def cut(choices, spot, _other):
    return spot.before if choices.random() < 0.5 else spot.at + spot.after


def replaced(choices, spot, other):
    start = choices.randint(0, len(other))
    return spot.before + other[start:start + choices.choice([1, 5, 30, 300])] + spot.after


def put_random(choices, spot, _other):
    return spot.before + choices.randbytes(choices.choice([1, 1, 4, 60])) + spot.at + spot.after


def swapped_lines(choices, spot, _other):
    lines = b''.join(spot).split(b'\n')
    one, two = choices.randrange(len(lines)), choices.randrange(len(lines))
    lines[one], lines[two] = lines[two], lines[one]
    return b'\n'.join(lines)


def turned_bit(choices, spot, _other):
    rest = spot.at + spot.after
    return spot.before + bytes([rest[0] ^ 1 << choices.randrange(8)]) + rest[1:] if rest else spot.before


CHANGES = [put_byte, other_byte, taken_away, repeated, cut, replaced, put_random, swapped_lines, turned_bit]


def changed_once(choices, data, other):
    """The bytes with one change at one place; it may bring in a piece of others."""
    start = choices.randint(0, len(data))
    end = min(len(data), start + choices.choice([1, 1, 1, 2, 3, 8, 40, 400]))
    return choices.choice(CHANGES)(choices, Spot(data[:start], data[start:end], data[end:]), other)


def changed(choices, data, other):
    if choices.random() < 0.02:
        return choices.choice([b'', choices.randbytes(choices.choice([1, 10, 1000, 100000])), other,
                               odd_byte(choices) * choices.choice([1, 4096, 4097, 70000])])
    for _ in range(choices.choice([1, 1, 1, 2, 3, 10])):
        data = changed_once(choices, data, other)
    return data


# ---- words

def pieces_of_words(choices):
    numbers = ['0', '1', '3', '8', '32', '33', '2500', '2501', '50000', '50001', '+5', '-5', '007', '', 'x', '1e3', '٣',
               '99999999999999999999']
    number = choices.choice(numbers)
    return choices.choice([['c'], ['c'], ['k'], ['n'], ['e'], ['e'], ['e'], ['nothing'], [''], ['-'], ['--'], ['--depth', number],
                           ['--depth=' + number], ['--steps', number], ['--steps=' + number], ['--depth'], ['--steps='],
                           ['-x'], ['--help'], ['\udcff'], ['--depths', number]])


def random_words(choices):
    words = [choices.choice([*answers.COMMANDS, *answers.TRACED * 4, '', 'Rules', '--', 'c'])]
    for _ in range(choices.choice([0, 1, 1, 2, 2, 2, 3, 3, 4])):
        words += pieces_of_words(choices)
    return words


def asked(words):
    """The command that the words ask for, as its words in the plainest form, or none."""
    if any('\udc80' <= letter <= '\udcff' for word in words for letter in word):
        return None
    if not words or words[0] not in (*answers.COMMANDS, 'net'):
        return None
    command, *rest = words
    if command == 'net':
        found = rules.words_of(rest, nets.MOST_STEPS, nets.MOST_STEPS)
        return found and [command, '--depth', str(found[1]), '--steps', str(found[2]), '--', *found[0]]
    if command in answers.WITH_TRACE:
        found = rules.words_of(rest)
        if found != cm.words_of(rest):
            raise SystemExit('chart_rules.py and code_machine.py read these words otherwise: %r' % rest)
        return found and [command, '--depth', str(found[1]), '--steps', str(found[2]), '--', *found[0]]
    files, ended = [], False
    for word in rest:
        if not ended and word == '--':
            ended = True
        elif not ended and word.startswith('-') and word != '-':
            return None
        else:
            files.append(word)
    if len(files) != 1:
        return None
    if command == 'selftest' and not re.fullmatch(r'\+?0*[0-9]{1,10}', files[0], re.ASCII):
        return None
    if command == 'selftest' and int(files[0]) >= 1 << 32:
        return None
    return [command, '--', *files]


# ---- the cases

def options_of(bounds):
    return ['--depth', str(bounds[0]), '--steps', str(bounds[1])]


class Soak:
    """Runs cases by their numbers, and counts what was met and what was wrong. `keep` is the folder for files of differences."""

    def __init__(self, program, seed, keep):
        self.program, self.seed = program, seed
        self.comparison = random_compiled.Comparison(program, seed, 2, keep)
        self.kinds, self.found, self.bad = Counter(), Counter(), 0

    def case(self, number):
        """Runs a case, and writes what is wrong of it."""
        choices = random.Random('soak %s %d' % (self.seed, number))
        kind = choices.choices(list(KINDS), list(KINDS.values()))[0]
        self.kinds[kind] += 1
        name = 'case %d, %s' % (number, kind)
        try:
            getattr(self, kind.replace(' ', '_') + '_case')(name, number, choices)
        except Wrong as wrong:
            self.program.bad.append('a reference: %s' % wrong)
        bad, self.program.bad = self.program.bad, []
        self.bad += len(bad)
        for line in bad:
            print('%s: %s' % (name, line), flush=True)

    def differ(self, name, lines, **contents):
        self.comparison.differ(name, lines, **contents)

    def text(self, choices):
        """A random chart, mostly an accepted one, and its event file."""
        maker = random_charts.Maker(choices, True)
        chart = maker.chart()
        if choices.random() < 0.1:
            random_charts.Changer(choices, maker, chart).change()
        text = random_charts.Writer(choices).chart(chart)
        try:
            events = random_charts.event_file(choices, check.check_chart(text))
        except syntax.Fault:
            events = 'tick\n'
        return text.encode('latin-1'), events.encode('latin-1')

    def chart_case(self, name, number, choices):
        self.comparison.chart(number, 2)

    def code_case(self, name, number, choices):
        made = random_codes.Case('soak %s' % self.seed, number)
        self.code_answers(name, number, made.text, made.events, made.depth, max(1, min(made.steps, 2000)))

    def code_answers(self, name, number, code, events, depth, steps):
        """Compares what `exec` and `upgrade` answer."""
        for each, data in (('code', code), ('events', events)):
            self.program.write(each, data)
        options = ['--depth', str(depth), '--steps', str(steps)]
        ran = self.program.run('exec', 'code', 'events', options=options)
        upgraded = self.program.run('upgrade', 'code')
        refused = ran.error if answers.CODE_LINE.fullmatch(ran.error) else ''
        lines = differences(name + ' upgrade', Ended(upgraded.out, refused, 1 if refused else 0), upgraded)
        self.found['code texts refused' if refused else 'code texts accepted'] += 1
        if not refused:
            self.program.write('code 2', upgraded.out.encode('latin-1'))
            lines += differences(name + ' exec of what upgrade writes', ran,
                                 self.program.run('exec', 'code 2', 'events', options=options))
            lines += differences(name + ' upgrade twice', upgraded, self.program.run('upgrade', 'code 2'))
        if number % ONE_IN == 0:
            self.found['codes compared with code_text.py and code_machine.py'] += 1
            lines += differences(name + ' code_text.py', ct.upgrade(code), upgraded)
            try:
                _, _, work = ct.read_code(code)
            except ct.Refused:
                work = 0
            if (work + 1) * steps <= 100 * random_codes.MOST_MOVES:
                lines += differences(name + ' code_machine.py', cm.execute(code, events, depth, steps)[0], ran)
        self.differ(name, lines, code=code, events=events)

    def hostile_chart_case(self, name, number, choices):
        (text, events), (other, _) = self.text(choices), self.text(choices)
        self.chart_answers(name, number, changed(choices, text, other), events, choices)

    def chart_answers(self, name, number, text, events, choices):
        """Compares what all commands answer of a chart."""
        program = self.program
        program.write('chart', text)
        program.write('events', events)
        checked, formatted = program.run('check', 'chart'), program.run('fmt', 'chart')
        lines = []
        with_references = number % ONE_IN == 0
        if with_references:
            self.found['charts compared with chart_check.py'] += 1
            try:
                expected = Ended(check.counts_text(check.check_chart(text.decode('latin-1'))) + '\n', '', 0)
            except syntax.Fault as fault:
                expected = Ended('', fault.written(text.decode('latin-1')) + '\n', 1)
            lines += differences(name + ' chart_check.py', expected, checked)
        self.found['hostile charts accepted' if checked.status == 0 else 'hostile charts refused'] += 1
        fault = answers.chart_fault(checked.error)
        by_reader = fault is not None and fault <= LAST_READER_FAULT
        lines += differences(name + ' fmt', checked if by_reader else Ended(formatted.out, '', 0), formatted)
        if formatted.status == 0:
            program.write('formatted', formatted.out.encode('latin-1'))
            lines += differences(name + ' fmt twice', formatted, program.run('fmt', 'formatted'))
        if checked.status != 0:
            for command, *more in (('compile',), ('rules', 'events'), ('run', 'events')):
                lines += differences('%s %s' % (name, command), checked, program.run(command, 'chart', *more))
        else:
            lines += differences(name + ' check of the canonical text', checked, program.run('check', 'formatted'))
            bounds = random_compiled.bounds_of(choices)
            lines += self.trace_lines(name, text, events, bounds, with_references)
            if program.chart_to_c:
                self.found['traces of the C of hostile texts'] += 1
                expected = program.run('rules', 'chart', 'events', options=options_of(bounds))
                lines += c_runs.compared(name + ' c_runs.py', program.chart_to_c, text.decode('latin-1'),
                                         events.decode('latin-1'), expected, options_of(bounds))
        for command in answers.C_COMMANDS if program.chart_to_c else ():
            answer = program.run(command, 'chart')
            lines += differences('%s %s' % (name, command), checked if checked.status != 0 else Ended(answer.out, '', 0), answer)
        self.differ(name, lines, chart=text, events=events)

    def trace_lines(self, name, text, events, bounds, with_references):
        """Differences of the traces of an accepted chart."""
        program = self.program
        options = options_of(bounds)
        program.write('events', events)
        ran = program.run('rules', 'chart', 'events', options=options)
        self.found['traces of hostile texts with status %s' % ran.status] += 1
        lines = differences(name + ' run', ran, program.run('run', 'chart', 'events', options=options))
        code = program.run('compile', 'chart')
        program.write('code', code.out.encode('latin-1'))
        lines += differences(name + ' compile', Ended(code.out, '', 0), code)
        lines += differences(name + ' exec', ran, program.run('exec', 'code', 'events', options=options))
        if os.path.exists(os.path.join(program.folder, 'formatted')):
            lines += differences(name + ' run of the canonical text', ran,
                                 program.run('run', 'formatted', 'events', options=options))
        if with_references and bounds[1] <= rules.DEFAULT_STEPS:
            self.found['traces compared with chart_rules.py'] += 1
            told = rules.run_rules(text.decode('latin-1'), events, *bounds)
            lines += differences(name + ' chart_rules.py', told, ran)
        return lines

    def hostile_code_case(self, name, number, choices):
        if choices.random() < 0.5:
            code, events = random_codes.Case('soak %s' % self.seed, number), None
            code, events = code.text, code.events
        else:
            text, events = self.text(choices)
            self.program.write('chart', text)
            code = self.program.run('compile', 'chart').out.encode('latin-1')
        other = random_codes.Case('soak other %s' % self.seed, number % 900).text
        self.code_answers(name, number, changed(choices, code, other), events, choices.choice([1, 8, 32]),
                          choices.choice([1, 20, 300]))

    def hostile_events_case(self, name, number, choices):
        text, events = self.text(choices)
        _, other = self.text(choices)
        self.program.write('chart', text)
        if self.program.run('check', 'chart').status != 0:
            return self.chart_answers(name, number, text, events, choices)
        formatted = os.path.join(self.program.folder, 'formatted')
        if os.path.exists(formatted):
            os.unlink(formatted)
        events = changed(choices, events, other)
        self.differ(name, self.trace_lines(name, text, events, random_compiled.bounds_of(choices), number % ONE_IN == 0),
                    chart=text, events=events)

    def net_case(self, name, number, choices):
        made = random_nets.Case('soak %s' % self.seed, number)
        self.net_answers(name, number, made.words, made.files)

    def hostile_net_case(self, name, number, choices):
        made = random_nets.Case('soak %s' % self.seed, number)
        if made.files:
            file = choices.choice(['net', 'net', 'schedule', 'schedule', choices.choice(sorted(made.files))])
            other = made.files[choices.choice(sorted(made.files))]
            made.files[file] = changed(choices, made.files.get(file, b''), other)
        self.net_answers(name, number, made.words, made.files)

    def net_answers(self, name, number, words, files):
        """Compares what `net` answers with the law of nets, with what other commands answer of its charts, and for a share with
        nets.py."""
        program = self.program
        for each in os.listdir(program.folder):
            os.unlink(os.path.join(program.folder, each))
        for each, data in files.items():
            program.write(each, data)
        plain = asked(['net', *words])
        memory = (program.most_memory('net', [plain[-2]], plain) if plain else 512 * MIB) if program.limited else None
        program.may_fail = (4,)                             # a file that isn't there, or that a hostile text names
        ran = program.call(['net', *words], memory, 'net' if plain else None)
        program.may_fail = ()
        self.found['nets with status %s' % ran.status] += 1
        lines = []
        if number % ONE_IN == 0:
            self.found['nets compared with nets.py'] += 1
            lines += differences(name + ' nets.py', nets.answer(words, program.read), ran)
        if plain:
            lines += self.alone_lines(name, plain, files, ran)
        self.differ(name, lines, words=' '.join(words).encode(), **files)

    def alone_lines(self, name, plain, files, ran):
        """What is wrong with an answer of `net` by the law of nets and by other commands."""
        refused = re.fullmatch('chart ([A-Za-z][A-Za-z0-9_]*) (.*\n)', ran.error)
        text = files.get('net', b'').decode('latin-1')
        if refused and ' ' in refused[2]:
            file = next(chart.file for chart in net_law.charts_of(text) if chart.name == refused[1])
            self.program.write('nothing', b'')              # what is left of the net
            checked = self.program.run('check', 'nothing' if file == 'net' else file)
            return differences(name + ' check', Ended('', 'chart ' + refused[2], 1), checked)
        if not ran.out:
            return []
        schedule = plain[-1]
        is_given = schedule == 'net' or schedule in [chart.file for chart in net_law.charts_of(text)]
        try:
            charts, result = net_law.law_of(text, b'' if is_given else files.get(schedule, b''), ran.out)
        except (net_law.Broken, IndexError, KeyError, ValueError) as broken:
            return ['%s: the law of nets: %s' % (name, broken)]
        lines = []
        for chart in charts:
            if chart.lines and net_law.is_readable(chart.events):
                lines += self.one_alone(name, chart, plain[1:5])
        return lines

    def one_alone(self, name, chart, options):
        """What is wrong with a chart that runs alone over what it took in a net."""
        program = self.program
        self.found['charts of nets that were run alone'] += 1
        program.write('events', ''.join(line + '\n' for line in chart.events).encode('latin-1'))
        command, file = answers.WITH_TRACE[len(chart.events) % 3], chart.file
        if command == 'exec':
            file = 'code'
            program.write(file, program.run('compile', chart.file).out.encode('latin-1'))
        index, *_, result = chart.lines[-1].rstrip('\n').split(' ', 5)
        error, status = ('', 0) if result == 'ok' else ('run %s: %s\n' % (index, result), 3)
        return differences('%s: %s alone by %s' % (name, chart.name, command), Ended(''.join(chart.lines), error, status),
                           program.run(command, file, 'events', options=options))

    def words_case(self, name, number, choices):
        """Lists of words, each compared with its plainest form."""
        door = {kind: os.path.join(answers.ROOT, 'examples/compiled/door.' + kind) for kind in ('chart', 'code', 'events')}
        for file, kind in (('c', 'chart'), ('k', 'code'), ('e', 'events')):
            with open(door[kind], 'rb') as sample:
                self.program.write(file, sample.read())
        self.program.write('n', b'flownet 1\ncharts 2\nc c c\nc d c\nroutes 0\nend\n')
        for _ in range(10):
            words = random_words(choices)
            plain = asked(words)
            self.found['lists of words that ask for ' + (plain[0] if plain else 'no command')] += 1
            if plain and plain[0] == 'selftest':
                continue
            memory = 512 * MIB if self.program.limited else None
            self.program.may_fail = (4, 5, 6)
            command = plain[0] if plain else None
            got = self.program.call([os.fsencode(word.encode('utf-8', 'surrogateescape')) for word in words], memory, command)
            if plain:
                self.differ(name, differences('%s %r' % (name, words), self.program.call(plain, memory, command), got))
            self.program.may_fail = ()

    # ---- the summary

    def print_summary(self, cases, began):
        """What was met, and for each command the statuses, the most time and the most memory."""
        program = self.program
        print('\nsoak with seed %s: %d cases in %.0f minutes, %d calls of the program'
              % (self.seed, cases, (time.time() - began) / 60, sum(program.calls.values())))
        print_counts('cases', self.kinds)
        print_counts('met', self.found)
        for title, counts in self.comparison.counts().items():
            print_counts(title, counts)
        print('\n%-12s %8s  %-44s %12s %12s' % ('command', 'calls', 'of each status', 'most seconds', 'most memory'))
        for command in sorted(program.seconds):
            statuses = {status: count for (each, status), count in program.calls.items() if each == command}
            print('%-12s %8d  %-44s %10.2f s %8.0f MiB' % (
                command, sum(statuses.values()), ', '.join('%s: %d' % each for each in sorted(statuses.items(), key=str)),
                program.seconds[command], program.memory[command] / 1024))
        print('memory was limited' if program.limited else 'memory was not limited: over 1 GiB is wanted to begin')
        own = resource.getrusage(resource.RUSAGE_SELF).ru_maxrss / 1024
        print('a process begins with the memory of this one, %.0f MiB, so less is not seen' % own)
        print('%d differences, %d answers that are none' % (self.comparison.wrong, self.bad))


def add_options(reader):
    reader.add_argument('--against', metavar='PROGRAM', type=os.path.abspath, required=True)
    reader.add_argument('--chart-to-c', metavar='CHART_TO_C', type=os.path.abspath)
    reader.add_argument('--longest', type=int, default=60)


def soak_of(options, folder):
    return Soak(Measured(options.against, folder, options.longest, options.chart_to_c), options.seed, options.keep)


def campaign(options, folder):
    """Tries so many cases; main.py calls it."""
    soak = soak_of(options, folder)
    return Campaign(soak.case, lambda: {'cases': soak.kinds, 'met': soak.found, **soak.comparison.counts(), 'calls of the program': Counter(
        {'%s, status %s' % each: count for each, count in soak.program.calls.items()})})


def main(words):
    """Runs cases until the time is over, and gives the status."""
    reader = parser(__doc__)
    add_options(reader)
    reader.add_argument('--minutes', type=float, default=60)
    reader.add_argument('--seed', default='1')
    reader.add_argument('--first', type=int, default=0)
    reader.add_argument('--cases', type=int, default=0)
    reader.add_argument('--keep', metavar='FOLDER', default='differences')
    options = reader.parse_args(words)
    began, first, most = time.time(), options.first, options.cases
    print('seed %s, from case %d on' % (options.seed, first), flush=True)
    with tempfile.TemporaryDirectory(dir='/dev/shm' if os.path.isdir('/dev/shm') else None) as folder:
        soak, number = soak_of(options, folder), first
        while time.time() - began < 60 * options.minutes and not (most and number - first >= most):
            soak.case(number)
            number += 1
        soak.print_summary(number - first, began)
    print('the next case is %d' % number)
    return 1 if soak.comparison.wrong or soak.bad else 0


if __name__ == '__main__':
    sys.exit(rules.with_deep_calls(lambda: main(sys.argv[1:])))
