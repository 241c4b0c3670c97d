"""What a chart or a code declares: its states, its data and its events, with the lines that declare them in a code text.

A name is a letter and then letters, digits and underscores, 1 to 63 bytes in all, and isn't a reserved word. A number is
decimal without leading zeros and at most 4,294,967,295 unless a rule gives another limit.

A scale is signed or unsigned, has a width of 1 to 64 bits and a fraction of 0 to 32 bits that isn't over the width. Its
values are m / 2^fraction, where the mantissa m has width bits, one of them for the sign where the scale is signed.

The lines are

    s PARENT COMP NAME               PARENT is `-` for state 0 and a number for every other state; COMP is leaf, or, and
    d KIND SCALE MODE INIT NAME      KIND is input, output or local; SCALE is bool, sfixW_EnF or ufixW_EnF; MODE is
                                     saturate, wrap or error, and `-` for bool; INIT is the mantissa of the first value,
                                     at most 2^64 in magnitude and with `-` in front where it is negative, for bool 0 or 1
    e KIND NAME                      KIND is input, local or output

with one space between two fields. There is one spelling of each line: no plus sign, no leading zero, no minus before 0."""
import re
from collections import namedtuple
from fractions import Fraction

RESERVED = set('chart or and state entry during exit outer inner default junction event input output local send to emit in '
               'true false tick saturate wrap error history'.split())
LONGEST_NAME = 63
MOST_WIDTH, MOST_FRACTION = 64, 32
MOST_NUMBER = 2 ** 32 - 1
MOST_INIT = 2 ** 64


class NotALine(Exception):
    """The fields aren't a line that may stand at this place."""


State = namedtuple('State', 'parent comp name')             # the parent is None or a number
Datum = namedtuple('Datum', 'kind scale mode init name')    # the scale is None for a flag, whose mode is saturate
Event = namedtuple('Event', 'kind name')


class Scale(namedtuple('Scale', 'signed width fraction')):
    """A scale, and which mantissas and values it has."""

    @property
    def least(self):
        return -2 ** (self.width - 1) if self.signed else 0

    @property
    def greatest(self):
        return 2 ** (self.width - 1) - 1 if self.signed else 2 ** self.width - 1

    def has(self, mantissa):
        return self.least <= mantissa <= self.greatest

    def value(self, mantissa):
        return Fraction(mantissa, 2 ** self.fraction)

    def mantissa(self, value):
        """The mantissa of exactly that value, and None where the scale has no such value."""
        steps = value * 2 ** self.fraction
        return int(steps) if steps.denominator == 1 and self.has(steps) else None

    def __str__(self):
        return '%sfix%d_En%d' % ('s' if self.signed else 'u', self.width, self.fraction)


def is_name(text):
    spelled = re.fullmatch('[A-Za-z][A-Za-z0-9_]*', text) is not None and len(text) <= LONGEST_NAME
    return spelled and text not in RESERVED


def number(text, most=MOST_NUMBER):
    if not re.fullmatch('0|[1-9][0-9]*', text) or len(text) > 40 or int(text) > most:
        raise NotALine
    return int(text)


def scale(text):
    """The scale, and None for `bool`."""
    if text == 'bool':
        return None
    parts = re.fullmatch('([su])fix([0-9]+)_En([0-9]+)', text)
    if not parts:
        raise NotALine
    width, fraction = number(parts[2]), number(parts[3])
    if not (1 <= width <= MOST_WIDTH and fraction <= MOST_FRACTION and fraction <= width):
        raise NotALine
    return Scale(parts[1] == 's', width, fraction)


def name(text):
    if not is_name(text):
        raise NotALine
    return text


def one_of(text, *words):
    if text not in words:
        raise NotALine
    return text


def state_line(fields, first):
    """The state of an `s` line, which is the first one or a later one."""
    if len(fields) != 4 or fields[0] != 's':
        raise NotALine
    if first:
        one_of(fields[1], '-')
    return State(None if first else number(fields[1]), one_of(fields[2], 'leaf', 'or', 'and'), name(fields[3]))


def datum_line(fields):
    """The datum of a `d` line."""
    if len(fields) != 6 or fields[0] != 'd':
        raise NotALine
    kind, of, mode, init = one_of(fields[1], 'input', 'output', 'local'), scale(fields[2]), fields[3], fields[4]
    if of is None:
        one_of(mode, '-')
        return Datum(kind, None, 'saturate', int(one_of(init, '0', '1')), name(fields[5]))
    one_of(mode, 'saturate', 'wrap', 'error')
    minus = init.startswith('-')
    mantissa = number(init[minus:], MOST_INIT)
    if minus and mantissa == 0:
        raise NotALine
    return Datum(kind, of, mode, -mantissa if minus else mantissa, name(fields[5]))


def event_line(fields):
    if len(fields) != 3 or fields[0] != 'e':
        raise NotALine
    return Event(one_of(fields[1], 'input', 'local', 'output'), name(fields[2]))


def state_text(state):
    return 's %s %s %s' % ('-' if state.parent is None else state.parent, state.comp, state.name)


def datum_text(datum):
    of = 'bool -' if datum.scale is None else '%s %s' % (datum.scale, datum.mode)
    return 'd %s %s %d %s' % (datum.kind, of, datum.init, datum.name)


def event_text(event):
    return 'e %s %s' % event


class Declarations:
    """The states, data and events of a chart or a code."""

    def __init__(self, states=(), data=(), events=()):
        self.states, self.data, self.events = list(states), list(data), list(events)

    def first_values(self):
        """The first value of each datum: a truth value for a flag, and an exact number for the others."""
        return [bool(d.init) if d.scale is None else d.scale.value(d.init) for d in self.data]

    def path(self, s):
        """The names on the way to state s from a child of the root, joined by slashes."""
        names = []
        while self.states[s].parent is not None:
            names.append(self.states[s].name)
            s = self.states[s].parent
        return '/'.join(reversed(names))
