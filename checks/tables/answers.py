#!/usr/bin/env python3
r"""Provokes each answer of a built `flowc` and of a built `chart_to_c`, and says which answers there are.

    python3 checks/tables/answers.py --against PROGRAM [--chart-to-c CHART_TO_C] [--large] < checks/tables/answer_table.txt

A block of the table has files, lists of words, and the whole answer to each of these lists: the status, what is written on
standard output and on standard error, and which of the files are opened. The form of a table is that of tables.py. Parts:

    words WORD ..           A run of PROGRAM with these words. '' is the empty word, and a TEXT stands for the bytes of a word.
    c_words WORD ..         A run of CHART_TO_C with these words; where none is named it is left out.
    file NAME TEXT          The file has these bytes.
    more NAME N TEXT        The file goes on with TEXT, N times.
    sample NAME PATH        The file is that of the repository.
    code NAME BLOCK         The file is the code text of that block of code_table.txt.
    bytes NAME N            The file has N bytes, zeros behind those that were given.
    compiled NAME           For `exec` the file is the code that `compile` writes of it, and for `upgrade` too.
    folder NAME             A folder.
    link NAME TARGET        A symbolic link.
    out DEVICE, error DEVICE   Where standard output or standard error goes: `full` is a device without room, `closed` is no
                            file, `input` is open for reading alone, and `gone` is a pipe that nobody reads any more.
    memory N                The process may have N bytes of memory. Where a program can't even begin with so much, as one
                            that was built with a sanitizer, its runs are left out, and that is said.
    large                   The block takes over a second or much memory, and is run with `--large` alone.

An answer has the lines `status N`, `error TEXT` for each line of standard error, `out TEXT` for each line of standard output,
or `out N lines, N bytes` and the last line where there are more than 12, `unended TEXT` for a line without its byte 10, and
`opens NAME ..`, or `opens none`.

`problem` says of any call whether its answer is one of those that the causes below allow; failing_devices.py and soak.py ask
it of each call.

    status 0    The whole answer was written. Nothing is on standard error.
    status 1    A chart, a code text, a net or an event file is refused. Of a refused chart, code or net nothing is on standard
                output; of an event file or a schedule the trace of the lines before.
    status 2    The words ask for no command. Nothing is on standard output.
    status 3    The run has a fault, or a queue of a net is full or empty, which the last line of the trace has too; `selftest`
                writes its line. `chart_to_c` has no such answer.
    status 4    A file couldn't be read. A front of the answer was written: nothing by a command that has no
                event file or schedule.
    status 5    Standard output couldn't be written. A front of the answer was written, and not all of it.
    status 6    Memory ran out. Nothing was written but by `rules`, which may have written a front of the trace."""
import ctypes
import os
import re
import resource
import select
import struct
import sys
import tempfile
from typing import NamedTuple

import beside                                # noqa: F401, which finds the other folders of checks
import chart_syntax as syntax
import code_acceptance as ca
import code_machine as cm
import event_files as ev
import tables
from programs import Ended, ended, parser, status_text

HERE = os.path.dirname(os.path.abspath(__file__))
ROOT = os.path.dirname(os.path.dirname(HERE))
MOST_SHOWN = 12
WITH_TRACE = ('rules', 'exec', 'run')
TRACED = (*WITH_TRACE, 'net')
WITH_CHART = ('check', 'fmt', 'rules', 'compile', 'run', 'bounds')
WITH_CODE = ('exec', 'upgrade', 'shrink')
COMMANDS = (*WITH_CHART, *WITH_CODE, 'selftest')
C_COMMANDS = ('header', 'source')       # those of chart_to_c, which have a chart too

# ---- which answers there are

CHART_LINES = '|'.join('%d %s' % (number, kind) for number, kind in syntax.KINDS.items() if number != 8)
CHART_PLACE = '[1-9][0-9]*:[1-9][0-9]*: (%s|8 TooMany (%s))\n' % (CHART_LINES, '|'.join(syntax.WITH_HISTORY.limits))
CHART_LINE = re.compile('chart ' + CHART_PLACE)
FORMS = '|'.join('%d %s' % each for each in ca.KINDS.items())
CODE_LINE = re.compile(r'code [1-9][0-9]*: (1 BadLine|3 Trailing)\n'
                       r'|code: (2 Truncated|4 Version|5 TextTooLong|6 Form (%s) [0-9]+\.[0-9]+)\n' % FORMS)
EVENT_LINE = re.compile('event [1-9][0-9]*: (%s)\n|event: (5 TooManyLines|6 FileTooLong)\n'
                        % '|'.join('%d %s' % each for each in ev.LINE_FAULTS.items()))
RUN_LINE = re.compile('run (0|[1-9][0-9]*): (depth|steps|zero|overflow [A-Za-z_][A-Za-z0-9_]*)\n')
# Lines of `net` that are no lines of other commands, and the start of its trace.
NET_LINE = re.compile('net [1-9][0-9]*: (1 BadLine|3 Trailing|4 BadRoute|5 NameTwice)\n|net: (2 Truncated|6 TextTooLong)\n'
                      '|chart [A-Za-z][A-Za-z0-9_]* ' + CHART_PLACE)
BAD_STEP_LINE = re.compile('event [1-9][0-9]*: 8 BadStep\n')
QUEUE_LINE = re.compile('run (0|[1-9][0-9]*): ((?:full|empty) (?:0|[1-9][0-9]*))\n')
NET_START = re.compile('0 [A-Za-z][A-Za-z0-9_]* 0 start ')
USAGE = ('usage: flowc check CHART, fmt CHART, rules CHART EVENTS, compile CHART, exec CODE EVENTS, run CHART EVENTS, '
         'upgrade CODE, bounds CHART, shrink CODE, net NET SCHEDULE, selftest N; --depth D, --steps S\n')
C_USAGE = 'usage: chart_to_c header CHART, source CHART, --version; --depth D, --steps S\n'
LINES = {0: '', 4: 'read fault\n', 5: 'write fault\n', 6: 'out of memory\n'}


def ends_ok(command, out):
    """Whether that are whole lines of a trace, the last of which has no fault."""
    begins_well = NET_START.match(out) if command == 'net' else out.startswith('0 start ')
    return bool(begins_well) and out.endswith(' ok\n')


def refusal_problem(command, out, error):
    """Why this is no answer of status 1, or none."""
    is_of_events = EVENT_LINE.fullmatch(error) or command == 'net' and BAD_STEP_LINE.fullmatch(error)
    if command in TRACED and is_of_events:
        return None if ends_ok(command, out) else 'an event file is refused after something else than the trace of the lines before'
    known = (command in (*WITH_CHART, *C_COMMANDS) and CHART_LINE.fullmatch(error)
             or command in WITH_CODE and CODE_LINE.fullmatch(error) or command == 'net' and NET_LINE.fullmatch(error))
    if not known:
        return 'status 1 has a line on standard error that tells no refusal'
    return 'a refused text leaves something on standard output' if out else None


def fault_problem(command, out, error):
    """Why this is no answer of status 3, or none."""
    found = RUN_LINE.fullmatch(error) or command == 'net' and QUEUE_LINE.fullmatch(error)
    if not found or command not in (*TRACED, 'selftest'):
        return 'status 3 has a line on standard error that tells no fault of a run'
    last = out.split('\n')[-2] if out.endswith('\n') else ''
    told = last.endswith(' ' + found[2]) and (command == 'selftest' or last.startswith(found[1] + ' '))
    return None if told else 'the last line of the trace has another fault than standard error'


def chart_fault(error):
    """The number of the fault that a line on standard error tells of a chart, or None."""
    found = CHART_LINE.fullmatch(error)
    return int(found[1].split(' ')[0]) if found else None


def problem(command, answer, usage=USAGE):
    """Why this is no answer of the command, or none. `command` is None where the words ask for none; `usage` is the usage line of
    the program."""
    out, error, status, timed_out = answer
    if timed_out or status not in range(7):
        return '%s is that of no answer' % status_text(answer)
    if error != {**LINES, 2: usage}.get(status, error):
        return 'status %d has another line on standard error than its own' % status
    if (command is None) != (status == 2) and status != 6:
        return 'the usage line and status 2 belong to the words that ask for no command'
    if status == 1:
        return refusal_problem(command, out, error)
    if status == 3:
        return fault_problem(command, out, error)
    if status == 0 and (not out.endswith('\n') or command in TRACED and not ends_ok(command, out)):
        return 'the answer of status 0 is not whole'
    if status == 4 and out and not (command in TRACED and ends_ok(command, out)):
        return 'something else than whole lines of a trace stands before a read fault'
    if status in (2, 6) and out and command != 'rules':
        return 'something was written at status %d' % status
    return None


# ---- which files are opened

class Opened:
    """Tells which files of a folder are opened from now on, by the notices of the system."""
    IN_OPEN, IN_ISDIR = 0x20, 0x40000000

    def __init__(self, folder):
        libc = ctypes.CDLL(None, use_errno=True)
        self.notices = libc.inotify_init()
        if self.notices < 0 or libc.inotify_add_watch(self.notices, os.fsencode(folder), self.IN_OPEN) < 0:
            raise SystemExit('the system gives no notice of opened files')

    def names(self):
        """The names in the order in which they were opened, each once. Ends the notices."""
        found = []
        while select.select([self.notices], [], [], 0)[0]:
            data, at = os.read(self.notices, 65536), 0
            while at < len(data):
                _, _, _, length = struct.unpack_from('iIII', data, at)
                name = os.fsdecode(data[at + 16:at + 16 + length].rstrip(b'\0'))
                found += [name] if name and name not in found else []
                at += 16 + length
        os.close(self.notices)
        return found


# ---- one run

def gone_pipe():
    end, device = os.pipe()
    os.close(end)
    return device


DEVICES = {'full': lambda: os.open('/dev/full', os.O_WRONLY), 'input': lambda: os.open('/dev/null', os.O_RDONLY),
           'gone': gone_pipe, 'closed': lambda: os.open('/dev/null', os.O_WRONLY)}
STREAMS = {1: 'stdout', 2: 'stderr'}


def call(program, words, folder, devices=None, memory=None, before=None, **options):
    """How a call in a folder ends. `devices` has a word of DEVICES for the descriptors 1 and 2 where they go elsewhere; `before`
    is called in the new process; the other options are those of `programs.ended`."""
    devices = devices or {}
    opened = {number: DEVICES[device]() for number, device in devices.items()}

    def prepare():
        for number, device in devices.items():
            if device == 'closed':
                os.close(number)
        if memory is not None:
            resource.setrlimit(resource.RLIMIT_AS, (memory, memory))
        if before is not None:
            before()

    if memory is not None or before is not None or 'closed' in devices.values():
        options['preexec_fn'] = prepare
    options.update((STREAMS[number], device) for number, device in opened.items())
    try:
        return ended([program, *words], cwd=folder, **options)
    finally:
        for device in opened.values():
            os.close(device)


def words_of(rest):
    return [b'' if word == "''" else tables.unescaped(word) for word in rest.split(' ')] if rest else []


def split_name(rest):
    name, _, more = rest.partition(' ')
    return name, more


class Files:
    """The files of a block, in a folder."""

    def __init__(self, block, folder, codes):
        """`codes` has the code texts of code_table.txt by name."""
        self.folder, self.compiled = folder, block.values('compiled')
        for word, rest in block.parts:
            name, more = split_name(rest)
            path = os.path.join(folder, name)
            if word == 'folder':
                os.mkdir(path)
            elif word == 'link':
                os.symlink(more, path)
            elif word == 'bytes':
                with open(path, 'ab') as file:
                    file.truncate(int(more))
            elif word in ('file', 'more', 'sample', 'code'):
                with open(path, 'ab') as file:
                    file.write(self.content(word, more, codes))
        self.charts = {name: self.read(name) for name in self.compiled}

    @staticmethod
    def content(word, more, codes):
        if word == 'more':
            return tables.times(more)
        if word == 'code':
            return codes[more]
        if word == 'sample':
            with open(os.path.join(ROOT, more), 'rb') as file:
                return file.read()
        return tables.unescaped(more)

    def read(self, name):
        with open(os.path.join(self.folder, name), 'rb') as file:
            return file.read()

    def prepare(self, program, command):
        """Makes code of the charts where the command wants code."""
        for name, chart in self.charts.items():
            code = chart
            if command in WITH_CODE:
                with open(os.path.join(self.folder, 'chart'), 'wb') as file:
                    file.write(chart)
                code = call(program, [b'compile', b'chart'], self.folder).out.encode('latin-1')
            with open(os.path.join(self.folder, name), 'wb') as file:
                file.write(code)


def lines_of(word, text):
    whole, _, rest = text.rpartition('\n')
    lines = whole.split('\n') if '\n' in text else []
    shown = lines
    if len(lines) > MOST_SHOWN:
        shown = ['%d lines, %d bytes' % (len(lines), len(text)), lines[-1]]
    return ['%s %s' % (word, line) for line in shown] + (['unended ' + rest] if rest else [])


class Program(NamedTuple):
    """A built program: where it is, its commands, and its usage line."""
    path: str
    commands: tuple
    usage: str


def flowc(path):
    return Program(os.path.abspath(path), (*COMMANDS, 'net'), USAGE)


def chart_to_c(path):
    return Program(os.path.abspath(path), (*C_COMMANDS, '--version'), C_USAGE)


def answer(program, words, files, devices, memory):
    """The lines of the answer of a run."""
    command = os.fsdecode(words[0]) if words else ''
    files.prepare(program.path, command)
    opened = Opened(files.folder)
    got = call(program.path, words, files.folder, devices, memory)
    names = opened.names()
    lines = [status_text(got)] + lines_of('error', got.error) + lines_of('out', got.out)
    found = None
    if not devices:
        asked = command if command in program.commands and got.status != 2 else None
        found = problem(asked, got, program.usage)
    return lines + ['opens ' + (' '.join(names) or 'none')] + (['problem: ' + found] if found else [])


def code_texts():
    """The code texts of the blocks of code_table.txt, by name."""
    texts = cm.Texts()
    with open(os.path.join(HERE, 'code_table.txt'), 'rb') as table:
        return {block.name: texts.code(block) for block in tables.blocks(table)}


def begins(program, memory, usage=USAGE):
    """Whether the program can begin with so much memory."""
    with tempfile.TemporaryDirectory() as folder:
        return call(program, [], folder, memory=memory) == Ended('', usage, 2)


class Table:
    """Runs the blocks of the table, and counts them, their runs, those that are left out, and the answers that are wrong."""

    def __init__(self, programs, large):
        """`programs` has the program for the words of each kind that is run."""
        self.programs, self.large = programs, large
        self.blocks = self.runs = self.left = self.wrong = 0
        self.codes = code_texts()

    def block(self, block):
        """Runs a block, and writes where an answer differs from the one worked out by hand."""
        memory = block.values('memory')
        memory = int(memory[0]) if memory else None
        runs = [(word, rest) for word, rest in block.parts if word in ('words', 'c_words')]
        if not runs or not block.expected:
            raise SystemExit('block %s has no run, or no answer that was worked out by hand' % block.name)
        kept = {word for word, _ in runs if self.is_run(block, word, memory)}
        self.left += sum(word not in kept for word, _ in runs)
        self.blocks += bool(kept)
        devices = {number: block.values(word)[0] for word, number in (('out', 1), ('error', 2)) if block.values(word)}
        with tempfile.TemporaryDirectory(dir='/dev/shm' if os.path.isdir('/dev/shm') else None) as folder:
            files = Files(block, folder, self.codes) if kept else None
            for word, rest in runs:
                if word in kept:
                    self.compare(block, word, rest, answer(self.programs[word], words_of(rest), files, devices, memory))

    def is_run(self, block, word, memory):
        """Whether the words of this kind are run of a block, and says where there is too little memory for that."""
        if word not in self.programs or not self.large and any(part == 'large' for part, _ in block.parts):
            return False
        program = self.programs[word]
        if memory is None or begins(program.path, memory, program.usage):
            return True
        print('block %s: %s passed over, since the program takes more memory to begin' % (block.name, word))
        return False

    def compare(self, block, word, rest, got):
        """Counts a run, and writes where its answer differs."""
        self.runs += 1
        if got != block.expected:
            self.wrong += 1
            print('block %s: %s %s' % (block.name, word, rest))
            print(''.join('  by hand   %s\n' % line for line in block.expected if line not in got)
                  + ''.join('  answered  %s\n' % line for line in got if line not in block.expected), end='')


def main(words):
    """Answers the table, and gives the status."""
    reader = parser(__doc__)
    reader.add_argument('--against', metavar='PROGRAM', required=True)
    reader.add_argument('--chart-to-c', metavar='CHART_TO_C')
    reader.add_argument('--large', action='store_true')
    options = reader.parse_args(words)
    programs = {'words': flowc(options.against)}
    if options.chart_to_c is not None:
        programs['c_words'] = chart_to_c(options.chart_to_c)
    table = Table(programs, options.large)
    for block in tables.blocks(sys.stdin.buffer):
        table.block(block)
    print('%d blocks, %d runs, %d of them differ; %d runs left out' % (table.blocks, table.runs, table.wrong, table.left))
    return 1 if table.wrong else 0


if __name__ == '__main__':
    sys.exit(main(sys.argv[1:]))
