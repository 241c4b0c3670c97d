#!/usr/bin/env python3
r"""Event files and trace lines by bytes and exact numbers alone.

    python3 checks/reference/event_files.py < checks/tables/event_table.txt
    python3 checks/reference/event_files.py --check < checks/tables/event_table.txt
    python3 checks/reference/event_files.py --against PROGRAM < checks/tables/event_table.txt

An event file is a text of lines. A line ends after byte 10, and the last line may lack that byte. A byte 13 directly before
the end of a line is dropped, one such byte and no more. Tokens are separated by spaces and tabs. A line without a token, or
whose first token begins with `#`, is skipped but has its number. The first token of every other line is `tick` or the name
of an input event. Each further token is NAME=VALUE with the name of an input. The value of a flag is `true` or `false`. The
value of a number is an optional minus, digits, and optionally a point and digits, at most 36 digits in all, and it must
equal a value of the input's scale exactly. Inputs that the line doesn't name keep their values.

A line is refused, and changes nothing, for the first of these:

    1 LineTooLong      Over 4,096 bytes stand before the byte 10. This comes before the others.
    2 UnknownEvent     The first token is neither `tick` nor the name of an event.
    3 NotInputEvent    It is the name of a local or an output event.
    4 UnknownInput     A further token has no `=`, or what stands before its first `=` isn't the name of an input.
    5 InputTwice       An earlier token of the line names the same input.
    6 BadValue         What follows the first `=` isn't a value of the input.

The last five go by tokens from the left, and at one token by number. A file stops at the first of these: its end; a refused
line; the good event line after 1,000,000 events, which is TooManyLines; byte 67,108,865, which is FileTooLong. A line is too
long at its 4,097th byte where that isn't its byte 10. FileTooLong counts on the line that holds byte 67,108,865, which may
be its byte 10. Of these two the earlier byte decides, and at one byte it is FileTooLong. On that line FileTooLong comes
before every other refusal and before the count of events.

A trace line is `INDEX EVENT [STATES] VALUES OUTPUTS RESULT` and byte 10. The index is 0 for the start and then grows by one
for each event. The event is `start`, `tick` or a name. The states are the active ones without the root by their numbers,
each as the path of names from a child of the root, joined by commas. The values are all data as NAME=VALUE, joined by
commas, or `-` where there are none. The outputs are the names of the events emitted, joined by commas, or `-`. The result is
`ok`, `depth`, `steps`, `zero`, or `overflow NAME`. A flag is `true` or `false`. A number is its exact decimal, with a minus
where it is negative, without zeros at the end after the point, and without a point where it is whole.

The parts of a block in a table (the form of tables is in tables.py) are

    s, d, e           A declaration, as declarations.py says. Without an `s` there is one state, the leaf `Root`.
    like NAME         The declarations of an earlier block come here.
    text TEXT         The bytes of the text and a byte 10 are the next ones of the event file.
    bytes TEXT        The bytes of the text are the next ones.
    times N TEXT      The bytes of the text are the next ones, N times.
    world INDEX EVENT RESULT STATES VALUES OUTPUTS
                      A world to write as a trace line. EVENT is `start`, `tick` or the number of an event, and RESULT may
                      be `overflow:V` with the number of a datum. The others are numbers joined by commas, or `-`: those of
                      the active states, the mantissas of the data, for a flag 0 or 1, and the numbers of the outputs.

The answer has a line for each event, `line NUMBER EVENT` with NAME=MANTISSA for each input that the line names, in the order
of the declarations, where the mantissa of a flag is `true` or `false`. Of over 40 events only the first 20 and the last 20
are written, with `and so on` between. Then comes `stop` with `end`, `L: N Kind`, `5 TooManyLines` or `6 FileTooLong`, where
L is the number of the line. Then come the trace lines of the worlds. A block without a file has no `stop`.

With `--against PROGRAM` nothing is answered. For each file PROGRAM runs a code that declares the same and does nothing, and
what it writes is compared with the trace that follows from the file. A world whose result is `ok`, whose index is at most 20
and which a code can reach is reached by one, and its trace line is compared. The differences are written, and the number of
runs; the status is 1 where there is a difference or no run."""
import re
import sys
from collections import deque, namedtuple
from fractions import Fraction

import declarations as de
import programs
import tables
from programs import Ended

Limits = namedtuple('Limits', 'line file events')
LIMITS = Limits(4096, 67108864, 1000000)
MOST_DIGITS = 36
LINE_FAULTS = {1: 'LineTooLong', 2: 'UnknownEvent', 3: 'NotInputEvent', 4: 'UnknownInput', 5: 'InputTwice', 6: 'BadValue'}


class Reaction(namedtuple('Reaction', 'line event inputs')):
    """A good event line: its number, `tick` or the number of an event, and the values of the inputs that it names."""


class Stop(namedtuple('Stop', 'line number')):
    """Where a file stops: at its end (no number), at a refused line, or at a limit of the file (no line)."""

    @property
    def text(self):
        """What follows the word `event` on standard error, and `end` at the end."""
        if self.number is None:
            return 'end'
        if self.line is None:
            return {5: '5 TooManyLines', 6: '6 FileTooLong'}[self.number]
        return '%d: %d %s' % (self.line, self.number, LINE_FAULTS[self.number])


END, TOO_MANY_LINES, FILE_TOO_LONG = Stop(None, None), Stop(None, 5), Stop(None, 6)


class LineFault(Exception):
    """The number of a fault of a line."""



# ---- lines

def lines(data, limits=LIMITS):
    """The number and the bytes of each line, and at last the stop that the length of lines and of the file makes."""
    start = number = 0
    while start < len(data):
        number += 1
        newline = data.find(b'\n', start)
        end, past = (len(data), len(data)) if newline < 0 else (newline, newline + 1)
        # Bytes are counted from 0 here, so the first byte past a limit has the number of the limit.
        line_over = start + limits.line if end > start + limits.line else None
        file_over = limits.file if past > limits.file else None
        if file_over is not None and (line_over is None or file_over <= line_over):
            yield FILE_TOO_LONG
            return
        if line_over is not None:
            yield Stop(number, 1)
            return
        line = data[start:end]
        yield number, line[:-1] if line.endswith(b'\r') else line
        start = past
    yield END


# ---- one line

def value_of(text, datum):
    """The value that the bytes tell, and None where they tell none of the datum's type."""
    if datum.scale is None:
        return {b'true': True, b'false': False}.get(text)
    parts = re.fullmatch(rb'(-?)([0-9]+)(?:\.([0-9]+))?', text)
    if not parts:
        return None
    front, behind = parts[2], parts[3] or b''
    if len(front) + len(behind) > MOST_DIGITS:
        return None
    value = Fraction(int(front + behind), 10 ** len(behind))
    if parts[1]:
        value = -value
    return None if datum.scale.mantissa(value) is None else value


def event_of(declared, line):
    """The event and the inputs of one line as a pair, and None where the line is skipped."""
    tokens = [token for token in line.replace(b'\t', b' ').split(b' ') if token]
    if not tokens or tokens[0].startswith(b'#'):
        return None
    event = 'tick'
    if tokens[0] != b'tick':
        named = [n for n, e in enumerate(declared.events) if e.name.encode() == tokens[0]]
        if not named:
            raise LineFault(2)
        event = named[0]
        if declared.events[event].kind != 'input':
            raise LineFault(3)
    inputs = {}
    for token in tokens[1:]:
        name, equals, text = token.partition(b'=')
        named = [v for v, d in enumerate(declared.data) if d.kind == 'input' and d.name.encode() == name]
        if not equals or not named:
            raise LineFault(4)
        if named[0] in inputs:
            raise LineFault(5)
        value = value_of(text, declared.data[named[0]])
        if value is None:
            raise LineFault(6)
        inputs[named[0]] = value
    return event, inputs


def reactions(declared, data, limits=LIMITS):
    """The reactions of a file one by one, and at last its stop."""
    events = 0
    for item in lines(data, limits):
        if isinstance(item, Stop):
            yield item
            return
        number, line = item
        try:
            found = event_of(declared, line)
        except LineFault as fault:
            yield Stop(number, fault.args[0])
            return
        if found is None:
            continue
        if events == limits.events:
            yield TOO_MANY_LINES
            return
        events += 1
        yield Reaction(number, *found)


# ---- trace lines

def decimal(value):
    """The exact decimal of a value m / 2^f."""
    rest, digits = abs(value), []
    whole = rest.numerator // rest.denominator
    rest -= whole
    while rest:
        rest *= 10
        digits.append(str(rest.numerator // rest.denominator))
        rest -= rest.numerator // rest.denominator
    return ('-' if value < 0 else '') + str(whole) + ('.' + ''.join(digits) if digits else '')


def value_text(value):
    if isinstance(value, bool):
        return 'true' if value else 'false'
    return decimal(value)


def event_name(declared, event):
    return event if isinstance(event, str) else declared.events[event].name


def trace_line(declared, index, event, active, values, outputs, result):
    """One trace line without its byte 10. The result is `ok`, `depth`, `steps`, `zero`, or `overflow NAME`."""
    states = ','.join(declared.path(s) for s in sorted(active) if s != 0)
    data = ','.join('%s=%s' % (d.name, value_text(v)) for d, v in zip(declared.data, values))
    out = ','.join(declared.events[e].name for e in outputs)
    return '%d %s [%s] %s %s %s' % (index, event_name(declared, event), states, data or '-', out or '-', result)


# ---- tables

class Blocks:
    """The declarations of the blocks so far."""

    def __init__(self):
        self.parts = {}

    def declared(self, block):
        parts = []
        for word, rest in block.parts:
            parts += self.parts[rest] if word == 'like' else [(word, rest)] if word in ('s', 'd', 'e') else []
        self.parts[block.name] = parts
        return declared_of(block.name, parts)


def declared_of(name, parts):
    """The declarations of these parts of a block."""
    states, data, events = [], [], []
    for word, rest in parts:
        fields = [word] + rest.split(' ')
        try:
            if word == 's':
                states.append(de.state_line(fields, not states))
            elif word == 'd':
                data.append(de.datum_line(fields))
            elif word == 'e':
                events.append(de.event_line(fields))
        except de.NotALine:
            raise SystemExit('block %s: no declaration: %s' % (name, ' '.join(fields)))
    return de.Declarations(states or [de.State(None, 'leaf', 'Root')], data, events)


def file_of(block):
    """The bytes of the event file, and None where the block has none."""
    made = {'text': lambda rest: tables.unescaped(rest) + b'\n', 'bytes': tables.unescaped, 'times': tables.times}
    pieces = [made[word](rest) for word, rest in block.parts if word in made]
    return b''.join(pieces) if pieces else None


def reaction_text(declared, reaction):
    words = ['line %d %s' % (reaction.line, event_name(declared, reaction.event))]
    for v in sorted(reaction.inputs):
        datum, value = declared.data[v], reaction.inputs[v]
        words.append('%s=%s' % (datum.name, value_text(value) if datum.scale is None else datum.scale.mantissa(value)))
    return ' '.join(words)


def world_of(rest):
    """The parts of a world: its index, event, result, active states, mantissas and outputs."""
    index, event, result, active, values, outputs = rest.split(' ')

    def numbers(text):
        return [] if text == '-' else [int(n) for n in text.split(',')]
    return int(index), event, result, numbers(active), numbers(values), numbers(outputs)


def world_text(declared, rest):
    index, event, result, active, values, outputs = world_of(rest)
    if result.startswith('overflow:'):
        result = 'overflow ' + declared.data[int(result[9:])].name
    shown = [bool(m) if d.scale is None else d.scale.value(m) for d, m in zip(declared.data, values)]
    return trace_line(declared, index, event if event in ('start', 'tick') else int(event), active, shown, outputs, result)


def answer(block, declared):
    """The lines of the answer to a block."""
    data = file_of(block)
    answers = []
    if data is not None:
        first, last, count = [], deque(maxlen=20), 0
        for item in reactions(declared, data):
            if isinstance(item, Stop):
                break
            count += 1
            (first if count <= 20 else last).append(item)
        answers += [reaction_text(declared, reaction) for reaction in first] + (['and so on'] if count > 40 else [])
        answers += [reaction_text(declared, reaction) for reaction in last] + ['stop ' + item.text]
    return answers + [world_text(declared, rest) for rest in block.values('world')]


# ---- a program's traces: of a code that does nothing, and of one that reaches a world

def code_of(declared, procs):
    """The code with these procedures, of which the first is that of the start and the last that of a reaction."""
    lines_of_code = ['flowcode 2', 'states %d' % len(declared.states)] + [de.state_text(s) for s in declared.states]
    lines_of_code += ['data %d' % len(declared.data)] + [de.datum_text(d) for d in declared.data]
    lines_of_code += ['events %d' % len(declared.events)] + [de.event_text(e) for e in declared.events]
    lines_of_code += ['procs %d 0 %d' % (len(procs), len(procs) - 1)]
    for instructions in procs:
        lines_of_code += ['p %d' % len(instructions)] + instructions
    return ''.join(line + '\n' for line in lines_of_code + ['end']).encode()


def idle_run(declared, data):
    """How `exec` ends for a code that does nothing."""
    values, index = declared.first_values(), 0
    out = [trace_line(declared, 0, 'start', [], values, [], 'ok')]
    for item in reactions(declared, data):
        if isinstance(item, Stop):
            break
        index += 1
        for v, value in item.inputs.items():
            values[v] = value
        out.append(trace_line(declared, index, item.event, [], values, [], 'ok'))
    error = '' if item == END else 'event%s%s\n' % (': ' if item.line is None else ' ', item.text)
    return Ended(''.join(line + '\n' for line in out), error, 0 if item == END else 1)


def in_order(declared, active):
    """The active states, each behind its parent, and None where marks can't reach them."""
    parents = [declared.states[s].parent for s in active]
    single = [p for p in parents if p is not None and declared.states[p].comp == 'or']
    if len(set(single)) < len(single) or any(p is not None and p not in active for p in parents):
        return None
    return sorted(active)


def world_run(declared, rest):
    """A code that reaches a world, and the event file for it; None where none is made."""
    index, event, result, active, values, outputs = world_of(rest)
    marks = in_order(declared, active)
    kinds = {'tick': 'input'} if index else {'start': 'input'}
    kinds.update((str(e), declared.events[e].kind) for e in range(len(declared.events) if index else 0))
    if result != 'ok' or index > 20 or marks is None or kinds.get(event) != 'input':
        return None
    if any(declared.events[e].kind != 'output' for e in outputs):
        return None
    shown = de.Declarations(declared.states, [d._replace(init=m) for d, m in zip(declared.data, values)], declared.events)
    reached = ['mark %d' % s for s in marks] + ['emit %d' % e for e in outputs] + ['ret 0']
    name = event if event in ('start', 'tick') else declared.events[int(event)].name
    return code_of(shown, [reached] if index == 0 else [['ret 0'], reached]), (name + '\n').encode() * index


def compare(block, declared, program):
    """For each run of the program that is made of a block, the lines that tell where its trace differs."""
    data = file_of(block)
    if data is not None:
        got = programs.run(program, ['exec', 'code', 'events'], {'code': code_of(declared, [['ret 0']]), 'events': data})
        yield programs.differences(block.name, idle_run(declared, data), got)
    for rest in block.values('world'):
        made = world_run(declared, rest)
        if made is not None:
            got = programs.run(program, ['exec', 'code', 'events'], dict(zip(('code', 'events'), made)))
            last = ''.join(got.out.splitlines(True)[-1:])
            expected = Ended(world_text(declared, rest) + '\n', '', 0)
            yield programs.differences(block.name, expected, got._replace(out=last))


def compare_all(blocks, earlier, program):
    """Writes where the program's runs differ, and how many there were. Gives the status, which is 1 where there was none, too."""
    runs = wrong = 0
    for block in blocks:
        for differences in compare(block, earlier.declared(block), program):
            runs += 1
            wrong += bool(differences)
            sys.stdout.write(''.join(line + '\n' for line in differences))
    print('%d runs, %d of them differ' % (runs, wrong))
    return 1 if wrong or not runs else 0


def main(words):
    earlier = Blocks()
    if words[:1] == ['--against'] and len(words) == 2:
        return compare_all(tables.blocks(sys.stdin.buffer), earlier, words[1])
    if words not in ([], ['--check']):
        sys.exit(__doc__)
    return tables.answer_table(sys.stdin.buffer, lambda block: answer(block, earlier.declared(block)), bool(words))


if __name__ == '__main__':
    sys.exit(main(sys.argv[1:]))
