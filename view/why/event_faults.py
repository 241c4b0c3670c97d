"""What is said of an event file that is refused."""
import re
from fractions import Fraction

import common                                # noqa: F401, which finds the folder checks
from chart_check import is_value_of
from chart_rules import LINE_FAULTS, LONGEST_FILE, LONGEST_LINE, MOST_EVENTS, LineFault, input_value
from chart_syntax import MOST_DIGITS
from common.guesses import closest, listed, meant
from common.places import Message, offset_of
from why.types import nearest_text, range_text

REFUSAL = re.compile(r'event ([0-9]+): ([1-6]) (\w+)')
OF_FILE = re.compile(r'event: ([56]) (\w+)')


def event_message(chart, data, line):
    """The message of flowc's line about an event file. The chart has `events` and `data`, as checks make them."""
    of_file = OF_FILE.fullmatch(line)
    if of_file:
        most = 'events' if of_file[1] == '5' else 'bytes'
        return Message(0, of_file[2], 'the file has more %s than there may be' % most,
                       ('a file has at most %d events and %d bytes' % (MOST_EVENTS, LONGEST_FILE),), 1)
    found = REFUSAL.fullmatch(line)
    if not found:
        return None
    number = int(found[2])
    start = offset_of(data, int(found[1]))
    stop = data.find('\n', start)
    text = data[start:len(data) if stop < 0 else stop]
    if number == 1:
        most = 'a line has at most %d bytes' % LONGEST_LINE
        return Message(start, found[3], 'the line has %d bytes' % len(text), (most,), start + 1)
    tokens = [(start + each.start(), each[0]) for each in re.finditer('[^ \t\r]+', text)]
    at, token, said, notes = fault_of(chart, tokens)
    return Message(at, LINE_FAULTS[number], said, tuple(notes), at + len(token))


def fault_of(chart, tokens):
    """The first token of a line that is wrong, its place, what is said of it, and the notes."""
    at, word = tokens[0]
    events = [each.name for each in chart.events if each.kind == 'input']
    may = 'an event line begins with tick%s' % ''.join(', ' + each for each in events)
    event = next((each for each in chart.events if each.name == word), None)
    if word != 'tick' and event is None:
        notes = [may]
        if '=' in word:
            notes.insert(0, 'write: `tick %s` where nothing but time passes' % word)
        elif word.startswith('//') or word.startswith('%'):
            notes.insert(0, 'write: # before a comment of an event file')
        return at, word, 'no event is named %s%s' % (word, meant(word, events + ['tick'])), notes
    if word != 'tick' and event.kind != 'input':
        return at, word, '%s is %s event, and only input events come from outside' % (
            word, 'a local' if event.kind == 'local' else 'an output'), [may]
    seen = {}
    for place, token in tokens[1:]:
        wrong = wrong_value(chart, seen, token)
        if wrong:
            return (place, token, *wrong)
    return at, word, 'the line is refused', [may]


def wrong_value(chart, seen, token):
    """What is said of a token after the first one, and the notes, or None where nothing is wrong with it."""
    name, equals, value = token.partition('=')
    inputs = {each.name: each for each in chart.data if each.kind == 'input'}
    known = 'the inputs are ' + listed(inputs)
    if not equals:
        hint = 'write: %s=VALUE, without blanks' % (closest(name, inputs) or 'NAME')
        return '%s has no =' % token, [hint, known]
    if name not in inputs:
        datum = next((each for each in chart.data if each.name == name), None)
        if datum:
            return '%s is no input, and gets no value from outside' % name, [
                'write: `input %s` in its declaration in the chart, or leave it out here' % name, known]
        return 'no input is named %s%s' % (name or 'by nothing', meant(name, inputs)), [known]
    if name in seen:
        return '%s has a value in this line already' % name, ['write: one value for each input']
    seen[name] = True
    try:
        input_value(inputs[name], value)
    except LineFault:
        return 'no value of %s is written %s' % (name, value or 'so'), value_notes(inputs[name], value)
    return None


def value_notes(datum, value):
    """How a value of an input is written."""
    if datum.scale is None:
        write = {'1': 'true', '0': 'false'}.get(value) or closest(value, ('true', 'false'))
        return ['write: %s=%s' % (datum.name, write or 'true or false')]
    number = re.fullmatch(r'([-+]?)([0-9]*\.?[0-9]*)', value)
    if not number or not re.search('[0-9]', value):
        return ['write: digits, with - before them and a point between them where they are wanted', range_text(datum.scale)]
    exact = Fraction(number[2]) * (-1 if number[1] == '-' else 1)
    if is_value_of(datum.scale, exact):
        return ['write: no + before it, digits on both sides of a point, and at most %d digits' % MOST_DIGITS]
    return [range_text(datum.scale), nearest_text(datum.scale, exact)]
