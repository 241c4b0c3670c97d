"""What is said of the faults of types, 12 to 16."""
import common                                # noqa: F401, which finds the folder checks
from chart_check import (FLAG, MOST_FRACTION, MOST_SIZE, Assign, Between, Emit, Guard, Literal, Read, Send, Sign, first_value,
                         type_of)
from chart_rules import value_text
from chart_syntax import KINDS
from common.places import Message
from why.types import nearest_text, range_text

WORD = {'input': 'an input event', 'local': 'a local event', 'output': 'an output event'}


def parts_of(expression):
    """An expression and all within it."""
    yield expression
    if isinstance(expression, Sign):
        yield from parts_of(expression.operand)
    elif isinstance(expression, Between):
        yield from parts_of(expression.left)
        yield from parts_of(expression.right)


def places_of(chart):
    """What stands at the places that faults of types name: operators, guards, assignments, sends, emits, events."""
    found = {}
    for transition in chart.transitions():
        if transition.event:
            found[transition.event_at] = transition
        if transition.guard:
            found[transition.guard.at] = transition.guard
            note_parts(found, transition.guard.expression)
    for block in chart.blocks():
        for statement in block:
            found[statement.at] = statement
            if isinstance(statement, Assign):
                note_parts(found, statement.value)
    for datum in chart.data:
        if datum.written_first is not None:
            found[datum.written_first.at] = datum
    return found


def note_parts(found, expression):
    for part in parts_of(expression):
        if isinstance(part, (Sign, Between)):
            found[part.at] = part


def type_messages(text, chart, faults):
    """The messages of faults of types, in the order of the text."""
    things = places_of(chart)
    return [Message(at, KINDS[number], *said(things[at], number)) for at, number in faults]


def said(thing, number):
    """What is said of a fault, and the notes."""
    if number == 12:
        return clash(thing)
    if number == 13:
        return too_wide(thing)
    if number == 14:
        name = thing.datum.name
        return ('%s is an input, which takes its values from the event file' % name,
                ('write: `output %s` or `local %s` in its declaration, or another datum here' % (name, name),))
    if number == 15:
        return event_kind(thing)
    value = first_value(thing.written_first)
    return ('%s is no value of %s' % (value_text(value), thing.name),
            ('write: another one, or a wider type: %s; %s' % (range_text(thing.scale), nearest_text(thing.scale, value)),))


def named(expression):
    """An expression in a few words."""
    if isinstance(expression, Read):
        return expression.datum.name
    return 'what stands there'


def sort_text(expression):
    kind = type_of(expression, [])
    what = 'a flag' if kind == FLAG else 'a number'
    return '%s is %s' % (expression.datum.name if isinstance(expression, Read) else 'the other', what)


def test_of(expression):
    """How a number is made a flag."""
    return '%s != 0' % (expression.datum.name if isinstance(expression, Read) else '(..)')


def clash(thing):
    """What is said where a flag and a number meet."""
    if isinstance(thing, Guard) and isinstance(thing.expression, Literal):
        flag = 'true' if thing.expression.mantissa else 'false'
        write = 'write: `[%s]`%s' % (flag, ', or no guard' if flag == 'true' else '')
        return 'the guard is a number, and a flag is wanted', (write,)
    if isinstance(thing, Guard):
        return 'the guard is a number, and a flag is wanted', ('write: a comparison, as `[%s]`' % test_of(thing.expression),)
    if isinstance(thing, Assign):
        return clash_of_assignment(thing)
    if isinstance(thing, Sign):
        if thing.operator == '!':
            return '! takes a flag, and this is a number', ('write: `%s`' % test_of(thing.operand).replace('!=', '=='),)
        return '- takes a number, and this is a flag', ('write: `!` for the opposite of a flag',)
    if isinstance(thing, Between):
        return clash_between(thing)
    flag = thing.scale is None
    return ('%s is a %s, and its first value isn\'t' % (thing.name, 'flag' if flag else 'number'),
            ('write: %s' % ('true or false' if flag else 'a number, as 1 or 0'),))


def clash_of_assignment(thing):
    name, value = thing.datum.name, thing.value
    if thing.datum.scale is None:
        if isinstance(value, Literal):
            flag = 'true' if value.mantissa else 'false'
            return '%s is a flag, and a number is assigned' % name, ('write: `%s = %s;`' % (name, flag),)
        return '%s is a flag, and a number is assigned' % name, ('write: `%s = %s;`' % (name, test_of(value)),)
    return '%s is a number, and a flag is assigned' % name, (
        'write: `bool` as the type of %s, or a junction with `[flag] { %s = 1; } -> S;` and `{ %s = 0; } -> S;`' % ((name,) * 3),)


def clash_between(thing):
    """What is said where operands don't match an operator."""
    flags = [each for each in (thing.left, thing.right) if type_of(each, []) == FLAG]
    numbers = [each for each in (thing.left, thing.right) if type_of(each, []) != FLAG]
    operator = thing.operator
    if operator in ('&&', '||'):
        tests = ' and '.join('`%s`' % test_of(each) for each in numbers)
        return '%s takes flags, and a number stands beside it' % operator, ('write: %s' % tests,)
    if operator in ('==', '!='):
        if isinstance(numbers[0], Literal) and numbers[0].mantissa in (0, 1) and numbers[0].fraction == 0:
            negative = (numbers[0].mantissa == 1) != (operator == '==')
            name = flags[0].datum.name if isinstance(flags[0], Read) else '(..)'
            write = 'write: the flag alone, `%s%s`' % ('!' if negative else '', name)
            return '%s compares a flag and a number' % operator, (write,)
        return '%s compares a flag and a number' % operator, ('%s; %s' % (sort_text(flags[0]), sort_text(numbers[0])),)
    names = ', '.join(each.datum.name for each in flags if isinstance(each, Read))
    return '%s takes numbers, and a flag stands beside it%s' % (operator, ': ' + names if names else ''), (
        'write: flags with &&, || and !, or a number in place of the flag',)


def too_wide(thing):
    """What is said of an operator or an assignment whose numbers may become too long."""
    if isinstance(thing, Assign):
        kind = type_of(thing.value, [])
        fraction = thing.datum.scale.fraction
        size = kind.size + max(0, fraction - kind.fraction)
        return ('the value has %d bits at the %d bits after the point of %s' % (size, fraction, thing.datum.name),
                ('at most %d are possible: give a part of it to a narrower datum first' % MOST_SIZE,))
    left, right = type_of(thing.left, []), type_of(thing.right, [])
    sizes = (left.size, left.fraction, right.size, right.fraction)
    sides = 'the sides have %d bits with %d after the point, and %d with %d' % sizes
    return ('%s may give a number of over %d bits, or of over %d after the point' % (thing.operator, MOST_SIZE, MOST_FRACTION),
            (sides, 'write: narrower types, or assign a part to a narrower datum first'))


def event_kind(thing):
    """What is said of an event that isn't of the kind that is wanted."""
    name, kind = thing.event.name, WORD[thing.event.kind]
    if isinstance(thing, Send):
        is_output = thing.event.kind == 'output'
        write = '`emit %s;`' % name if is_output else 'a local event of its own, which the same transitions name'
        return '%s is %s, and a local one is sent' % (name, kind), ('write: ' + write,)
    if isinstance(thing, Emit):
        write = '`send %s;`' % name if thing.event.kind == 'local' else '`event output` in the declaration of another event'
        return '%s is %s, and an output event is emitted' % (name, kind), ('write: ' + write,)
    return '%s is an output event, which triggers nothing' % name, (
        'write: a local event beside it, and `send` that too where this one is emitted',)
