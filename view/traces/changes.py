"""What changes in a trace from line to line, and the whole trace from that.

A line of changes is

    INDEX EVENT [STATES] NAME=VALUE .. emit OUTPUTS fault RESULT

and every part but EVENT may be missing. INDEX may be left out. STATES are the paths of states that become active, each the lowest
one: what is above it is active too, and where that is an OR, another child of it is left with all below. `-PATH` is left without
another one in its place. A datum that isn't named keeps its value, at the start its first value. OUTPUTS are the events that were
emitted, with commas between them. RESULT is the fault that ended the run. A line that is empty or begins with # says nothing."""
import re

import common                                # noqa: F401, which finds the folder checks
from chart_rules import LineFault, input_value, value_text
from common.guesses import meant
from traces.lines import BadLine, Line, paths_of, states_of

CHANGES = re.compile(r'(?:([0-9]+)[ \t]+)?([A-Za-z]\w*)(?:[ \t]+\[([^\]]*)\])?((?:[ \t]+\w+=\S+)*)(?:[ \t]+emit[ \t]+(\S+))?'
                     r'(?:[ \t]+fault[ \t]+(depth|steps|zero|overflow \w+))?[ \t]*\r?')
MOST_DIGITS = 20 + 32        # of a value: of 64 bits before its point, and 32 after it


# ---- states

def enter(active, state):
    """Makes a state active with all above it, and leaves what can't be active beside these."""
    above = [state, *state.ancestors()]
    for child, parent in zip(above, above[1:]):
        if parent.composition == 'or':
            for other in parent.children:
                if other is not child:
                    leave(active, other)
        active.add(child)


def leave(active, state):
    active.difference_update(state.with_all_below())


def state_words(chart, before, after):
    """The words that lead from one set of active states to another."""
    entered = after - before
    lowest = [each for each in chart.states if each in entered and not any(child in after for child in each.children)]
    active = set(before)
    for state in lowest:
        enter(active, state)
    left = [each for each in chart.states if each in active and each not in after]
    words = [each.path() for each in lowest]
    return words + ['-' + each.path() for each in left if each.parent not in left]


def after_words(chart, before, words, number):
    """The active states after these words."""
    known = {each.path(): each for each in chart.states if each.parent}
    active = set(before)
    for word in words:
        path = word.lstrip('-')
        if path not in known:
            raise BadLine(number, 'the chart has no state %s%s' % (path, meant(path, known)))
        if word.startswith('-'):
            if known[path] not in active:
                raise BadLine(number, '%s is left, and isn\'t active' % path)
            leave(active, known[path])
    for word in words:
        if not word.startswith('-'):
            enter(active, known[word])
    return active


# ---- from a trace to changes

def changes_of(chart, lines):
    """The lines of changes of a whole trace."""
    active, paths, values = {chart.root}, (), {each.name: value_text(each.first()) for each in chart.data}
    for line in lines:
        words = ['%d' % line.index, line.event]
        if line.states != paths:
            now = states_of(chart, line.states, line.index + 1)
            words.append('[%s]' % ','.join(state_words(chart, active, now)))
            active, paths = now, line.states
        for name, value in line.values:
            if name not in values:
                raise BadLine(line.index + 1, 'the chart has no datum %s' % name)
            if values[name] != value:
                words.append('%s=%s' % (name, value))
        if line.outputs:
            words += ['emit', ','.join(line.outputs)]
        if line.result != 'ok':
            words += ['fault', line.result]
        values.update(line.values)
        yield ' '.join(words)


# ---- from changes to a trace

def trace_of(chart, text):
    """The lines of the whole trace that changes stand for. BadLine where one isn't in its form, or names what isn't there."""
    active, paths, found = {chart.root}, (), []
    values = {each.name: value_text(each.first()) for each in chart.data}
    for number, line in enumerate(text.split('\n'), 1):
        if not line.strip() or line.lstrip().startswith('#'):
            continue
        parts = CHANGES.fullmatch(line)
        if not parts:
            raise BadLine(number, 'this isn\'t EVENT [STATES] NAME=VALUE .. emit OUTPUTS fault RESULT: %s' % line[:60])
        if found and found[-1].result != 'ok':
            raise BadLine(number, 'the line before ended the run')
        index = len(found)
        if parts[1] and int(parts[1]) != index:
            raise BadLine(number, 'the number %s stands where %d comes next' % (parts[1], index))
        check_event(chart, parts[2], index, number)
        words = [each.strip() for each in (parts[3] or '').split(',') if each.strip()]
        if words:
            active = after_words(chart, active, words, number)
            paths = paths_of(chart, active)
        values.update(new_values(chart, parts[4].split(), number))
        outputs = checked_outputs(chart, parts[5], number)
        found.append(Line(index, parts[2], paths, tuple(values.items()), outputs, parts[6] or 'ok'))
    if not found:
        raise BadLine(1, 'no line begins with start')
    return found


def check_event(chart, event, index, number):
    """Refuses a line that doesn't begin with start, tick or an input event at its place."""
    known = ['start'] if index == 0 else ['tick'] + [each.name for each in chart.events if each.kind == 'input']
    if event not in known:
        said = 'the first line begins with start' if index == 0 else 'no event is named %s%s' % (event, meant(event, known))
        raise BadLine(number, said)


def new_values(chart, pairs, number):
    """The values that a line names, each written as a trace writes it."""
    data, found = {each.name: each for each in chart.data}, {}
    for pair in pairs:
        name, _, text = pair.partition('=')
        if name not in data:
            raise BadLine(number, 'no datum is named %s%s' % (name, meant(name, data)))
        try:
            found[name] = value_text(input_value(data[name], text, MOST_DIGITS))
        except LineFault:
            raise BadLine(number, '%s is no value of %s' % (text, name)) from None
    return found


def checked_outputs(chart, field, number):
    """The output events of a line."""
    names = tuple(field.split(',')) if field else ()
    known = [each.name for each in chart.events if each.kind == 'output']
    for name in names:
        if name not in known:
            raise BadLine(number, 'no output event is named %s%s' % (name, meant(name, known)))
    return names
