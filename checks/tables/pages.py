"""The examples of a page, and whether a built program answers to them as the page says.

A page is a text in Markdown. These of its parts are examples:

    a block that begins with `$ `        Each line that begins so is a command of `sh`, and the lines after it are what it writes on
                                         both streams. `flowc` and `examples/try` are the program. The commands of a page are given
                                         one after another at the top of a copy of the examples.
    a block of a chart, an empty line,   `rules` and `run` write the trace for the events of examples/semantics/NAME.events, where
    and a trace                          NAME is the last word that stood before as (`NAME`), and NAME.chart there has that chart.
    (`NAME`) .. the last line is `LINE`  The last line of the trace of that chart of examples/semantics.
    | `chart ..` | `LINE` |              LINE is what `check` says of this text.
    a table of lines of event files      Its head is EVENT_LINES below, and its chart has the declarations that stand before as
                                         "with `..` answers so", and the states W and W/A. Numbers of zeros and bytes may be said.
    a table of event files               Its head is EVENT_FILES; the chart is the same.
    the event line `LINE` gives `LINE`   A line of the trace of that chart, which `LINE` of an event file gives as its first.
    a table of a code text               Its head is CODE_TEXT. `exec` runs the code as `rules` runs the lamp of the examples.
    a table of changes of a code text    Its head is CODE_CHANGES. `exec` and `upgrade` refuse what it makes of the code text.
    a table of procedures                Its head is PROCEDURES. `compile` writes these procedures of the last chart before.
    a table of instructions              Its head begins as INSTRUCTIONS. The instructions of its last column are read in a code.
    `CODE` is what a chart writes as `EXPRESSION`, `A / B` is VALUE

A row of such a table that isn't understood is wrong, as is a page without an example."""
import os
import re
import shutil
import subprocess
import tempfile
from fractions import Fraction

import beside                                # noqa: F401, which finds the other folders of checks
from programs import LONGEST, status_text

ROOT = os.path.dirname(os.path.dirname(os.path.dirname(os.path.abspath(__file__))))
EVENT_LINES = ['Line', 'Answer', 'Why']
EVENT_FILES = ['File', 'Line on standard error']
CODE_TEXT = ['Line', 'Text', 'What it says']
CODE_CHANGES = ['Change', 'Refusal']
PROCEDURES = ['Number', 'What it is of', 'Instructions']
INSTRUCTIONS = ['Instruction', 'What it does', 'An example of its use']
SPAN = '`([^`]*)`'


class NotUnderstood(Exception):
    """An example is in no form that is known."""


def spans(cell):
    return re.findall(SPAN, cell)


def number(text):
    return int(text.replace(',', ''))


def sample(path):
    """What a file of the repository has."""
    with open(os.path.join(ROOT, path), 'rb') as file:
        return file.read()


def written(ran):
    """The one answer of a call, from standard output or standard error."""
    return (ran.out + ran.error).rstrip('\n') if ran.status in (0, 1) else status_text(ran)


class Page:
    """The tables and the blocks of a page, and the text that stands before each."""

    def __init__(self, path):
        with open(path, encoding='utf-8') as file:
            self.text = file.read()
        self.tables, self.blocks = [], []
        lines, at = self.text.split('\n'), 0
        while at < len(lines):
            first = at
            if lines[at].startswith('```'):
                at = lines.index('```', at + 1)
                self.blocks.append(('\n'.join(lines[:first]), lines[first + 1:at]))
            elif lines[at].startswith('|'):
                while lines[at].startswith('|'):
                    at += 1
                self.tables.append(('\n'.join(lines[:first]), [self.cells(line) for line in lines[first:at]]))
            at += 1

    @staticmethod
    def cells(line):
        return [cell.strip(' ').replace('\\|', '|') for cell in re.split(r'(?<!\\)\|', line)[1:-1]]

    def rows(self, head):
        """The text before each row of the tables with such a head, and its cells."""
        return [(before, row) for before, rows in self.tables for row in rows[2:] if rows[0] == head]


class Examples:
    """How many examples of a page were tried, and the lines that tell what is wrong with them."""

    def __init__(self, path, program):
        self.path, self.program, self.page = path, program, Page(path)
        self.count, self.wrong = 0, []

    def compare(self, what, expected, got):
        self.count += 1
        if expected != got:
            self.wrong.append('%s: %s: %s instead of %s' % (self.path, what, got[-2000:], expected[-2000:]))

    def attempt(self, what, example, *words):
        """Tries an example, which is wrong where it isn't understood."""
        try:
            example(*words)
        except (NotUnderstood, ValueError, IndexError, FileNotFoundError) as why:
            self.wrong.append('%s: %s: not understood: %r' % (self.path, what, why))

    def all(self):
        for before, lines in self.page.blocks:
            if '' in lines and lines[0].startswith('chart '):
                self.attempt(lines[0], self.case, before, lines)
        for _, rows in self.page.tables:
            for row in rows:
                self.chart_row(row)
        for head, example in ((EVENT_LINES, self.event_line), (EVENT_FILES, self.event_file), (CODE_CHANGES, self.code_change),
                              (INSTRUCTIONS, self.instructions)):
            for before, row in self.page.rows(head):
                self.attempt(' | '.join(row)[:200], example, before, row)
        for before, rows in self.page.tables:
            if rows[0] in (CODE_TEXT, PROCEDURES):
                self.attempt(rows[0][1], self.lamp_code if rows[0] == CODE_TEXT else self.procedures, before, rows[2:])
        self.attempt('a sentence', self.sentences)
        self.commands()

    # ---- charts

    def chart_row(self, row):
        text, line = (re.fullmatch(SPAN, cell) for cell in row[:2]) if len(row) == 2 else (None, None)
        if text and line and text[1].startswith('chart ') and re.match(r'chart [0-9]+:|ok ', line[1]):
            self.compare(text[1], line[1], written(self.program.run('check', text[1].encode())))

    def case(self, before, lines):
        """A chart and its trace, of examples/semantics."""
        stem = 'examples/semantics/' + re.findall(r'\(`(\w+)`\)', before)[-1]
        cut = lines.index('')
        chart, trace = ('\n'.join(part) + '\n' for part in (lines[:cut], lines[cut + 1:]))
        self.compare(stem + '.chart', chart, sample(stem + '.chart').decode())
        for command in ('rules', 'run'):
            self.compare(stem + '.trace', trace, self.program.run(command, chart.encode(), sample(stem + '.events')).out)

    def value(self, expression):
        """The value of an expression of numbers."""
        chart = 'chart C { local n : sfix40_En16; entry { n = %s; } default -> A; state A { } }' % expression
        return Fraction(re.search('n=([^ ]*)', self.program.run('rules', chart.encode(), b'').out)[1])

    def condition(self, expression):
        """An expression of the code, by the procedure of a guard with the state X and the data n and m."""
        chart = 'chart C { local n : int8; local m : int8; default -> A; state A { outer [%s] -> B; } state B { } state X { } }'
        return re.search('\nunless 1 expr (.*)\n', self.program.run('compile', (chart % expression).encode()).out)[1]

    def sentences(self):
        text = ' '.join(self.page.text.split('\n'))
        for name, _, line in re.findall(r'\(`(\w+)`\)([^`]*?)the last line is ' + SPAN, text):
            chart, events = (sample('examples/semantics/%s.%s' % (name, kind)) for kind in ('chart', 'events'))
            self.compare(name, line, self.program.run('rules', chart, events).out.split('\n')[-2])
        for line, trace in re.findall('event line %s gives %s' % (SPAN, SPAN), text):
            self.compare(line, trace, self.events(text, line.encode() + b'\n').out.split('\n')[1])
        for code, expression in re.findall('%s is what a chart writes as %s' % (SPAN, SPAN), text):
            self.compare(expression, code, self.condition(expression))
        for expression, value in re.findall('`([-0-9.q]+ / [-0-9.q]+)` is (-?[0-9]+(?:/[0-9]+)?)', text):
            self.compare(expression, str(Fraction(value)), str(self.value(expression)))

    # ---- event files

    def events(self, before, data):
        """The run of an event file by the chart that was declared before."""
        declared = re.findall('with `([^`]*)` answers so', before.replace('\n', ' '))[-1]
        chart = 'chart C { %s default -> W; state W or { default -> A; state A { } } }' % declared
        return self.program.run('rules', chart.encode(), data)

    @staticmethod
    def shown_lines(cell):
        """The lines that a cell shows, with ` or ` between them."""
        for part in cell.split(' or '):
            shown = re.fullmatch(SPAN + '(?: and ([0-9,]+) (zeros|more bytes))?', part)
            if shown:
                yield shown[1] + ('0' if shown[3] == 'zeros' else '.') * number(shown[2] or '0')
            elif part == 'a line of spaces':
                yield '    '
            else:
                raise NotUnderstood(part)

    def event_line(self, before, row):
        for line in self.shown_lines(row[0]):
            ran = self.events(before, line.encode() + b'\n')
            trace, refusal = ran.out.split('\n')[1:-1], spans(row[1])
            if refusal:
                self.compare(line, 'event 1: %s after 0 lines' % refusal[0], '%s after %d lines' % (ran.error.rstrip(), len(trace)))
            elif row[1] == 'skipped':
                self.compare(line, 'no line', (ran.error.rstrip() or '\n'.join(trace)) or 'no line')
            elif re.match('the event, |a tick, ', row[1]):
                values = dict(pair.split('=') for pair in trace[0].split(' ')[3].split(','))
                told = re.findall(r'(\w+) is (\S+)', row[1])
                self.compare(line, 'a line', 'a line' if len(trace) == 1 and not ran.error else ran.error)
                for name, value in told:
                    self.compare(line, value, value if self.is_value(value, values[name]) else values[name])
            else:
                raise NotUnderstood(row[1])

    @staticmethod
    def is_value(told, traced):
        return told == traced or told not in ('true', 'false') and Fraction(told) == Fraction(traced)

    @staticmethod
    def shown_file(cell):
        """The bytes of the event file that a cell tells."""
        data = ''
        for part in re.split(', (?:and )?', cell):
            line, times = re.fullmatch(SPAN, part), re.fullmatch('a line of ([0-9,]+) times ' + SPAN, part)
            lines = re.fullmatch('([0-9,]+) lines of %s(?: and ([0-9]+) blanks)?' % SPAN, part)
            if line:
                data += line[1] + '\n'
            elif times:
                data += times[2] * number(times[1]) + '\n'
            elif lines:
                data += (lines[2] + ' ' * int(lines[3] or 0) + '\n') * number(lines[1])
            elif part == 'an empty line':
                data += '\n'
            elif not re.fullmatch('[0-9]+ bytes each', part):
                raise NotUnderstood(part)
        return data.encode()

    def event_file(self, before, row):
        expected = '' if row[1] == 'none' else spans(row[1])[0]
        self.compare(row[0], expected, self.events(before, self.shown_file(row[0])).error.rstrip())

    # ---- code

    def lamp_code(self, _, rows):
        text = self.code_lines(rows)
        ran = self.program.run('exec', '\n'.join(text + ['']).encode(), sample('examples/lamp/lamp.events'))
        self.compare('the code text', sample('examples/lamp/lamp.trace').decode(), ran.out)

    @staticmethod
    def code_lines(rows):
        """The lines of a code text, whose numbers stand before them."""
        if [row[0] for row in rows] != [str(at) for at in range(1, len(rows) + 1)]:
            raise NotUnderstood('the lines have other numbers')
        return [spans(row[1])[0] for row in rows]

    @staticmethod
    def changed(lines, change):
        """The texts to which a change leads."""
        lines = list(lines)
        replaced = re.findall('line ([0-9]+) is ' + SPAN, change)
        left = re.match('line ([0-9]+) is left out, or its byte 10$', change)
        added = re.match('one more line %s follows$' % SPAN, change)
        for at, text in replaced:
            lines[int(at) - 1] = text
        if left and int(left[1]) == len(lines):
            yield '\n'.join(lines[:-1] + [''])
            yield '\n'.join(lines)
        elif added or replaced:
            yield '\n'.join(lines + ([added[1]] if added else []) + [''])
        else:
            raise NotUnderstood(change)

    def code_change(self, _, row):
        lines = self.code_lines([cells for _, cells in self.page.rows(CODE_TEXT)])
        for text in self.changed(lines, row[0]):
            for command, files in (('upgrade', ()), ('exec', (b'',))):
                self.compare(row[0], spans(row[1])[0], written(self.program.run(command, text.encode(), *files)))

    def procedures(self, before, rows):
        """The procedures of the last chart before the table."""
        earlier = [lines for text, lines in self.page.blocks if len(text) < len(before)]
        shown = [[line for line in lines if not line.startswith('$ ')] for lines in earlier]
        chart = [lines for lines in shown if lines and lines[0].startswith('chart ')][-1]
        code = self.program.run('compile', ('\n'.join(chart) + '\n').encode()).out
        made = [' ; '.join(procedure.split('\n')[1:-1]) for procedure in re.split('(?m)^p ', code.replace('\nend\n', '\n'))[1:]]
        self.compare('how many procedures', str(len(made)), str(len(rows)))
        for at, (row, procedure) in enumerate(zip(rows, made)):
            self.compare('procedure %s' % row[0], '%d: %s' % (at, spans(row[2])[0]), '%s: %s' % (row[0], procedure))

    def instructions(self, _, row):
        """The instructions of the example of a row, in the last procedure of a code that has what they name."""
        lines = ['flowcode 2', 'states 5', 's - or R'] + ['s 0 leaf %s' % name for name in 'ABCD']
        lines += ['data 1', 'd local sfix8_En0 saturate 0 n', 'events 3', 'e input I', 'e local L', 'e output O', 'procs 14 0 0']
        last = spans(row[2]) + ['ret 0'] * 4
        text = '\n'.join(lines + ['p 1', 'ret 0'] * 13 + ['p %d' % len(last)] + last + ['end', ''])
        self.compare(row[2], text, written(self.program.run('upgrade', text.encode())) + '\n')

    # ---- commands

    def commands(self):
        sessions = [lines for _, lines in self.page.blocks if lines and lines[0].startswith('$ ')]
        if not sessions:
            return
        with tempfile.TemporaryDirectory() as folder:
            at_hand = os.path.join(folder, 'crates/flowc/out')
            os.makedirs(at_hand)
            shutil.copytree(os.path.join(ROOT, 'examples'), os.path.join(folder, 'examples'))
            os.symlink(self.program.path, os.path.join(at_hand, 'flowc'))
            os.remove(os.path.join(folder, 'examples/try'))
            os.symlink(self.program.path, os.path.join(folder, 'examples/try'))
            how = {'cwd': folder, 'env': {**os.environ, 'PATH': at_hand + os.pathsep + os.environ['PATH']}}
            for lines in sessions:
                for command, expected in self.dialogue(lines):
                    self.compare('$ ' + command, expected, self.said(command, how))

    @staticmethod
    def said(command, how):
        done = subprocess.run(['sh', '-c', command], stdin=subprocess.DEVNULL, stdout=subprocess.PIPE, stderr=subprocess.STDOUT,
                              timeout=LONGEST, check=False, **how)
        return done.stdout.decode('utf-8', 'replace')

    @staticmethod
    def dialogue(lines):
        """The commands of a block, each with what it writes."""
        found = []
        for line in lines:
            if line.startswith('$ '):
                found.append((line[2:], []))
            else:
                found[-1][1].append(line + '\n')
        return [(command, ''.join(written_lines)) for command, written_lines in found]


def wrong_examples(program, path):
    """How many examples a page has, and lines that tell what is wrong with them."""
    examples = Examples(path, program)
    examples.all()
    return examples.count, examples.wrong + ([] if examples.count else [path + ': no example'])
