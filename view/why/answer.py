"""The answer of flowwhy: runs flowc, and explains its line."""
import subprocess
import sys

import common                                # noqa: F401, which finds the folder checks
from chart_check import check_chart, faults_of, pair_faults, structure_faults, type_faults
from chart_rules import DEFAULT_DEPTH, DEFAULT_STEPS, with_deep_calls
from chart_syntax import KINDS, Fault, read_chart
from common.places import written, written_without_place
from common.program import MEMORY, REFUSED, RUN_FAULT, read_file, run
from why.code_faults import code_message
from why.event_faults import event_message
from why.name_faults import Told, name_messages
from why.run_faults import run_message
from why.structure_faults import structure_messages
from why.syntax_faults import syntax_messages
from why.type_faults import type_messages


MOST = 100                  # so many faults of a kind are told at most


def is_code(text):
    """Whether a file is a code text and no chart."""
    return text.startswith('flowcode') or text[:40].lstrip().startswith('flowcode')


def chart_messages(text):
    """All that is told of a chart text: the first fault of the reader, and where that is of a number, those of all numbers after
    it; or all faults of names, and those of types that don't hang on them; or all faults of the first later pass that has any."""
    try:
        tree = read_chart(text)
    except Fault as fault:
        return syntax_messages(text, fault)[:MOST]
    names = Told(tree)
    messages = name_messages(text, names)[:MOST]
    messages += type_messages(text, names.chart, sorted(set(type_faults(names.chart)))[:MOST])
    if messages:
        return messages
    for find in (structure_faults, pair_faults):
        faults = sorted(set(find(names.chart)))
        if faults:
            return structure_messages(text, names.chart, faults[:MOST])
    return []


def first_line(text):
    """The line of the reference for a chart text, or nothing where it is accepted."""
    try:
        faults = faults_of(read_chart(text))[1]
    except Fault as fault:
        return fault.written(text)
    return Fault(faults[0][1], faults[0][0]).written(text) if faults else ''


def words_of_flowc(files, texts, options):
    """The command that reads these files."""
    if len(files) == 1:
        return ['upgrade' if is_code(texts[0]) else 'check', *files]
    return ['exec' if is_code(texts[0]) else 'rules', *options, *files]


def explained(files, texts, ran, bounds):
    """The lines that explain how flowc ended."""
    line = ran.line.split('\n')[-1]
    if ran.status == MEMORY:
        return ['%s: the memory that flowc was given isn\'t enough' % files[0]]
    if ran.status not in (REFUSED, RUN_FAULT):
        return []
    if line.startswith('chart '):
        return chart_lines(files[0], texts[0], line)
    if line.startswith('code'):
        message = code_message(texts[0], line)
        return written(files[0], texts[0], message) if message else []
    if line.startswith('event'):
        message = event_message(declared(texts[0]), texts[1], line)
        return written(files[1], texts[1], message) if message else []
    if is_code(texts[0]):
        return ['%s:1:1: error: %s: the run of this code has a fault; the chart that it was made of tells more' % (
            files[0], line.partition(': ')[2])]
    message = run_message(check_chart(texts[0]), texts[1], line, *bounds)
    return written(files[0], texts[0], message) if message else []


def declared(text):
    """The events and data of a chart or of a code."""
    if not is_code(text):
        return check_chart(text)
    return events_and_data_of_code(text)


def events_and_data_of_code(text):
    """The events and data that the lines `e` and `d` of a code declare, as a chart that declares the same."""
    lines = [each.split(' ') for each in text.split('\n')]
    events = ['event %s %s;' % tuple(each[1:]) for each in lines if each[0] == 'e' and len(each) == 3]
    data = ['%s %s : %s;' % (each[1], each[5], each[2]) for each in lines if each[0] == 'd' and len(each) == 6]
    return Told(read_chart('chart Code { %s default -> S; state S { } }' % ' '.join(events + data))).chart


def chart_lines(name, text, line):
    """The lines on a refused chart, whose first message is that of flowc's line."""
    messages = chart_messages(text)
    lines = []
    if not messages or Fault(number_of(messages[0]), messages[0].offset).written(text) != without_limit(line):
        lines.append('%s:1:1: error: the checks find %s; flowc\'s line counts' % (name, first_line(text) or 'no fault'))
    for message in messages:
        lines += written(name, text, message)
    if len(messages) > 1:
        lines.append('%s: %d faults; the line of flowc names the first' % (name, len(messages)))
    return lines


def number_of(message):
    return next(number for number, kind in KINDS.items() if kind == message.kind.split(' ')[0])


def without_limit(line):
    """A refusal without the name of a limit at its end."""
    return ' '.join(line.split(' ')[:4])


def answer(program, files, options=(), bounds=(DEFAULT_DEPTH, DEFAULT_STEPS), out=None):
    """Runs flowc over one or two files. Gives how it ended, and the lines that go to standard error: flowc's own, and what
    explains it. Its standard output goes where ours goes, or to `out`."""
    texts = []
    for name in files:
        try:
            texts.append(read_file(name))
        except OSError as fault:
            ran = run(program, ['rules' if len(files) == 2 else 'check', *options, *files], subprocess.DEVNULL)
            return ran, [ran.line] + written_without_place(name, 'ReadFault', fault.strerror)
    words = words_of_flowc(files, texts, options)
    if words[0] == 'upgrade':
        out = subprocess.DEVNULL
    elif out is None:
        sys.stdout.flush()
    ran = run(program, words, out)
    if ran.status == 0:
        return ran, []
    lines = with_deep_calls(lambda: explained(files, texts, ran, bounds))
    return ran, [ran.line] + (lines if isinstance(lines, list) else [])

