"""What to write instead of a function or an operator of Stateflow that is written like a call."""

import re
from fractions import Fraction

# Temporal logic: what is declared, counted and set, and at the end the form of the call, by where it stands.
COUNT_EVENTS = 'declare `local n : TYPE;`; '
COUNT_TICKS = 'declare `event input STEP;`, which comes at each tick, and `local n : TYPE;`; '
COUNT_TIME = 'declare `event input STEP;`, which comes in equal steps of time, and `local n : TYPE;`, wide enough for the count; '
COUNTER = ('count in the chart by `inner EVENT { n = n + 1; } -> @counted; junction counted { }`, set `entry { n = 0; }` in the '
           'state, and write ')
IN_ORDER, IN_PLACE = '%s at its place in the order', '%s in its place'
STEPS = ', with the number in place of COUNT'
EXAMPLE = ', which is %d for steps of %s'
TEMPORAL = {
    'after': '`outer EVENT [n >= COUNT] -> S;`',
    'before': '`outer EVENT [n < COUNT] -> S;`',
    'at': '`outer EVENT [n == COUNT] -> S;`',
    'every': '`inner EVENT [n >= COUNT] { n = 0; a; } -> @next;` with `junction next { [false] -> @counted; }`',
    'temporalCount': 'n',
    'elapsed': 'n',
}
AS_EVENT = '`outer EVENT [n >= COUNT] { n = 0; } -> S;`'
ALONE = ', with a count for it alone'
IN_GUARD = {
    'after': '`n >= COUNT`',
    'before': '`n < COUNT`',
    'at': '`n == COUNT`',
    'every': '`n >= COUNT`',
    'temporalCount': '`n`',
    'elapsed': '`n`',
}
# The steps of time that are shown, the longest first, in seconds.
STEPS_OF_TIME = (('10 ms', Fraction(1, 100)), ('1 ms', Fraction(1, 1000)), ('1 us', Fraction(1, 1000000)))
# The units of time, with how many of them a second has.
UNITS = {'sec': ('s', 1), 'msec': ('ms', 1000), 'usec': ('us', 1000000)}
TICKS = ('tick', 't')
WIDTHS = (8, 16, 32)
CALC = ('there are no functions: a region that is sent to takes their place, as `state Calc { inner CALL { y = x * x; } -> '
        '@done; junction done { } }` with `x = 3; send CALL to Calc; z = y;`')
EDGES = ('there are no edges of values: declare `local edge : bool;` and a datum last of the type of X, keep the value of the last '
         'sample, as `inner SAMPLE { edge = TEST; last = X; } -> @seen; junction seen { }` in the chart, and test `[edge]` under '
         'SAMPLE; of a flag write `X` for `X > 0`, and `!X` for `X <= 0`')
EDGE = {
    'rising': 'X > 0 && last <= 0',
    'falling': 'X <= 0 && last > 0',
    'crossing': 'X > 0 && last <= 0 || X <= 0 && last > 0',
}
ENTERING = 'there is no event of entering: write `entry { send ENTERED to R; }` in the state, where R is the region that listens'
LEAVING = 'there is no event of leaving: write `exit { send LEFT to R; }` in the state, where R is the region that listens'
ADVICE = {
    'duration': 'count under an input event how often the condition held, and set the count to 0 where it does not',
    'count': 'count under an input event how often the condition held, and set the count to 0 where it does not',
    'hasChanged': 'keep the value of the last sample: `inner SAMPLE { changed = x != last; last = x; } -> @seen; junction seen '
                  '{ }` in the chart, and test `[changed]` under SAMPLE',
    'change': 'there is no event of a change: keep the value of the last sample and compare, as '
              '`inner SAMPLE { changed = x != last; last = x; } -> @seen; junction seen { }`',
    'enter': ENTERING,
    'exit': LEAVING,
    'en': ENTERING,
    'ex': LEAVING,
    'send': 'write `send E;` or `send E to S;`',
    'broadcast': 'write `send E;` or `send E to S;`',
    'raise': 'write `send E;`, or `emit E;` of an output event',
    'in': 'write `in(S)` or `in(S/T)`',
    'abs': 'take two unsigned data: `p = x; m = -x; y = p + m;`, each of which saturates at 0; or a junction with `[x < 0]`',
    'max': 'with an unsigned datum d, which saturates at 0: `d = a - b; y = b + d;`; or a junction with `[a > b]`',
    'min': 'with an unsigned datum d, which saturates at 0: `d = a - b; y = a - d;`; or a junction with `[a < b]`',
    'mod': 'for whole numbers write `a - a / b * b`, since quotients round down',
    'rem': 'for whole numbers from 0 on write `a - a / b * b`',
    'floor': 'an assignment to a datum without fraction rounds down',
    'ceil': 'an assignment to a datum without fraction rounds down: assign `-x`, and take `-` of that',
    'round': 'an assignment to a datum without fraction rounds down: assign `x + 0.5`',
    'fix': 'an assignment to a datum without fraction rounds down',
    'sign': 'write a junction with `[x > 0]`, `[x < 0]` and a transition without guard',
    'bitand': 'there are no operators on bits',
    'bitor': 'there are no operators on bits',
    'bitxor': 'there are no operators on bits',
    'bitshift': 'there are no operators on bits: multiply or divide by a power of 2',
    'isempty': 'there are no messages',
    'receive': 'there are no messages',
    'sizeof': 'there are no arrays',
    'fi': 'a number takes the type of the datum to which it is assigned; write the type in the declaration',
    'cast': 'a number takes the type of the datum to which it is assigned: assign it to a datum of that type',
    'disp': 'there is no output of texts: emit an output event',
    'printf': 'there is no output of texts: emit an output event',
    'fprintf': 'there is no output of texts: emit an output event',
}
SAME = {'hasChangedFrom': 'hasChanged', 'hasChangedTo': 'hasChanged', 'chg': 'change', 'fabs': 'abs', 'fmod': 'rem',
        'et': 'elapsed', 'getElapsedTime': 'elapsed'}
CASTS = ('int8', 'int16', 'int32', 'int64', 'uint8', 'uint16', 'uint32', 'uint64', 'single', 'double', 'boolean', 'logical',
         'float', 'int')
MATHS = ('sqrt', 'sin', 'cos', 'tan', 'exp', 'log', 'pow', 'atan', 'atan2', 'rand')


def temporal_advice(name, arguments, place):
    """What to write instead of an operator of temporal logic with these arguments, by where it stands."""
    found = re.match(r'\(\s*(?:([^(),]+?)\s*,\s*)?(\w+)\s*\)', arguments)
    count, unit = found.groups() if found else (None, None)
    if place == 'guard':
        form = IN_PLACE % IN_GUARD[name]
    elif name == 'every' and place != 'on':
        form = IN_ORDER % AS_EVENT.replace('outer', place) + ALONE
    else:
        form = IN_ORDER % TEMPORAL[name].replace('outer', place)
    if unit in UNITS:
        return time_advice(form, count, unit)
    timed = unit is None or unit in TICKS
    said = (COUNT_TICKS if timed else COUNT_EVENTS).replace('TYPE', type_for(count)) + COUNTER + form
    return said.replace('EVENT', 'STEP' if timed else unit).replace('COUNT', count or '3')


def time_advice(form, count, unit):
    """What to write instead of an operator that counts time, of which the chart knows none."""
    short, second = UNITS[unit]
    said = COUNT_TIME.replace('TYPE', type_for(None)) + COUNTER + form
    if count is None:
        return said.replace('EVENT', 'STEP') + ', which counts steps: the time is n times a step'
    said += STEPS
    if re.fullmatch(r'\d+(?:\.\d+)?', count):
        seconds = Fraction(count) / second
        step, long = next(((step, long) for step, long in STEPS_OF_TIME if (seconds / long).denominator == 1), STEPS_OF_TIME[-1])
        said = said.replace('uint16', type_for(str(seconds / min(long, Fraction(1, 1000)) // 1))) + EXAMPLE % (seconds / long, step)
    return said.replace('EVENT', 'STEP').replace('COUNT', '%s %s / step' % (count, short))


def type_for(count):
    """The narrowest type that holds a count, and `uint16` where that isn't a number."""
    if count is None or not count.isdecimal():
        return 'uint16'
    return 'uint%d' % next((width for width in WIDTHS if int(count) < 2 ** width), 64)


def edge_advice(name, arguments):
    """What to write instead of `rising(x)`, `falling(x)` or `crossing(x)`."""
    found = re.match(r'\(\s*([A-Za-z]\w*)\s*\)', arguments)
    return EDGES.replace('TEST', EDGE[name]).replace('X', found[1] if found else 'x')


def call_advice(name, arguments='', place='outer'):
    """What to write instead of a call of that name, with what follows the name. The place is `guard` for a guard or a value, `on`
    for an action of a state, or the word before a transition of which the call is the event."""
    name = SAME.get(name, name)
    if name in TEMPORAL:
        return temporal_advice(name, arguments, place)
    if name in EDGE:
        return edge_advice(name, arguments)
    if name in ADVICE:
        return ADVICE[name]
    if name in CASTS:
        return ADVICE['cast']
    if name in MATHS:
        return 'there are no functions: give the value as an input, or compute it by sums, products and quotients'
    if name in ('if', 'while', 'for', 'switch', 'else', 'elseif', 'not', 'or', 'and'):
        return None
    return CALC
