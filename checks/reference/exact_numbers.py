#!/usr/bin/env python3
"""Answers a table of calls of `fixed_point` by fractions and whole numbers alone.

    python3 checks/reference/exact_numbers.py < crates/exact_numbers/stdin | diff - crates/exact_numbers/stdout

The form of a table is in tables.py, and its head is answered as any line that is no call. A number is written as its mantissa
and its fraction, `M F`, and is M / 2^F. A scale is written as `s8.0` or `u8.4`: its sign, its width, and its fraction. A row is
one call, and its answer is one line:

add, sub, mul    The sum, the difference or the product, exactly: its mantissa and its fraction, which is the greater of
                 the two, and for a product their sum.
div              The floor of the exact quotient at the greater of the two fractions. `Zero` exactly where the divisor is 0.
compare          `Less`, `Equal` or `Greater`, by the values.
neg              The number with the other sign, at its own fraction.
fit              The floor of the number at the scale's fraction. Out of the scale's range it saturates to the nearest end,
                 or wraps to the mantissa in range that differs by a multiple of 2^width, or is `Overflow`.
exact            The scale's mantissa of the equal value, and `None` where the scale has no equal value.
read             A decimal is an optional minus, digits, optionally a point and digits, and optionally q and one or two
                 digits up to 32; a minus and q don't stand together. Another text is `NotNumber`. Over 36 digits before q
                 are `TooLong`. With q the number is the floor at that fraction. Without q it is exact at the least fraction
                 up to 32 that makes it so, and `NotBinary` where none does. A mantissa of 2^99 or more is `TooLong`.
write            The shortest exact decimal text, and how many bytes it has.
scale            The scale of that sign, width and fraction, and `None` where the width isn't 1 to 64, or the fraction is
                 over 32 or over the width. A scale's mantissas have width bits, one of them for the sign where it is signed.

`out of conditions` is answered where a call may not be made:

add, sub, compare    A fraction is over 64, or one of the numbers is over 2^100 steps of the greater fraction in magnitude.
mul                  The fraction of the product is over 64, or its mantissa over 2^100 in magnitude.
div                  A fraction is over 64, or the dividend is over 2^100 in magnitude, counted in steps of the divisor's
                     fraction and the greater one together.
neg, fit, write      The mantissa is over 2^100 in magnitude. In `fit` also where it is so with the bits that the scale's
                     fraction adds, and in `write` where the fraction is over 64.

`not a call` is answered to any other line, as one with a mantissa of over 128 bits or a scale that isn't one."""
import re
import sys
from fractions import Fraction
from math import floor

import tables
from demands import demand

MOST = 2 ** 100
MOST_FRACTION = 64
MOST_WIDTH = 64
MOST_SCALE_FRACTION = 32        # of a scale, and of a number that is read
MOST_DIGITS = 36
MOST_READ = 2 ** 99 - 1
FAR = 200
OUT = 'out of conditions'


class NotACall(Exception):
    """The line is no call."""


# ---- the words of a line

def whole(word, least, greatest):
    if not re.fullmatch('-?[0-9]+' if least < 0 else '[0-9]+', word) or not least <= int(word) <= greatest:
        raise NotACall
    return int(word)


def sign(word):
    if word not in ('s', 'u'):
        raise NotACall
    return word == 's'


class Number:
    """A value, and the fraction at which it is written."""

    def __init__(self, mantissa, fraction):
        self.mantissa = whole(mantissa, -2 ** 127, 2 ** 127 - 1)
        self.fraction = whole(fraction, 0, 2 ** 32 - 1)

    @property
    def value(self):
        """The value, but of a fraction over FAR only that it is nearer to 0 than any step of a scale: a mantissa has at most 127
        bits."""
        return Fraction(self.mantissa, 2 ** min(self.fraction, FAR))


class Scale:
    """The least and the greatest mantissa of a scale, and its fraction."""

    def __init__(self, signed, width, fraction):
        self.turn = 2 ** width
        self.fraction = fraction
        self.least = -self.turn // 2 if signed else 0
        self.greatest = self.least + self.turn - 1

    def has(self, mantissa):
        return self.least <= mantissa <= self.greatest


def is_scale(width, fraction):
    return 1 <= width <= MOST_WIDTH and fraction <= MOST_SCALE_FRACTION and fraction <= width


def scale_of(word):
    parts = re.fullmatch(r'([su])([0-9]+)\.([0-9]+)', word)
    if not parts:
        raise NotACall
    width, fraction = whole(parts[2], 0, 255), whole(parts[3], 0, 255)
    if not is_scale(width, fraction):
        raise NotACall
    return Scale(sign(parts[1]), width, fraction)


# ---- how values are written

def steps(value, fraction):
    """How many steps of that fraction the value is, a whole number or not."""
    return value * 2 ** fraction


def written(value, fraction):
    """The mantissa and the fraction of a value that is a whole number of steps."""
    mantissa = steps(value, fraction)
    demand(mantissa.denominator == 1, '%s is no whole number of steps at the fraction %d' % (value, fraction))
    return '%d %d' % (mantissa, fraction)


# ---- the calls

def two_numbers(words):
    if len(words) != 4:
        raise NotACall
    return Number(*words[:2]), Number(*words[2:])


def by_steps(answer):
    """A call of two numbers that are brought to the greater fraction."""
    def call(words):
        a, b = two_numbers(words)
        if max(a.fraction, b.fraction) > MOST_FRACTION:
            return OUT
        fraction = max(a.fraction, b.fraction)
        if abs(steps(a.value, fraction)) > MOST or abs(steps(b.value, fraction)) > MOST:
            return OUT
        return answer(a.value, b.value, fraction)
    return call


def order(a, b, _fraction):
    return 'Less' if a < b else 'Equal' if a == b else 'Greater'


def product(words):
    a, b = two_numbers(words)
    if a.fraction + b.fraction > MOST_FRACTION:
        return OUT
    if abs(steps(a.value * b.value, a.fraction + b.fraction)) > MOST:
        return OUT
    return written(a.value * b.value, a.fraction + b.fraction)


def quotient(words):
    a, b = two_numbers(words)
    if max(a.fraction, b.fraction) > MOST_FRACTION:
        return OUT
    fraction = max(a.fraction, b.fraction)
    if abs(steps(a.value, fraction + b.fraction)) > MOST:
        return OUT
    if b.value == 0:
        return 'Zero'
    return '%d %d' % (floor(steps(a.value / b.value, fraction)), fraction)


def negation(words):
    if len(words) != 2:
        raise NotACall
    a = Number(*words)
    return OUT if abs(a.mantissa) > MOST else '%d %d' % (-a.mantissa, a.fraction)


def fitted(words):
    """The number in a scale, by a mode where it is out of range."""
    if len(words) != 4 or words[3] not in ('saturate', 'wrap', 'error'):
        raise NotACall
    a, scale, mode = Number(*words[:2]), scale_of(words[2]), words[3]
    added = max(0, scale.fraction - a.fraction)
    if abs(a.mantissa) > MOST or abs(a.mantissa * 2 ** added) > MOST:
        return OUT
    mantissa = floor(steps(a.value, scale.fraction))
    if scale.has(mantissa):
        return str(mantissa)
    if mode == 'saturate':
        return str(min((scale.least, scale.greatest), key=lambda end: abs(mantissa - end)))
    if mode == 'wrap':
        remainder = mantissa % scale.turn
        return str(remainder if scale.has(remainder) else remainder - scale.turn)
    return 'Overflow'


def equal(words):
    if len(words) != 3:
        raise NotACall
    a, scale = Number(*words[:2]), scale_of(words[2])
    mantissa = steps(a.value, scale.fraction)
    return str(mantissa) if mantissa.denominator == 1 and scale.has(mantissa) else 'None'


def read(text):
    """The mantissa and the fraction of a decimal."""
    parts = re.fullmatch(r'(-?)([0-9]+)(?:\.([0-9]+))?(?:q([0-9]{1,2}))?', text)
    if not parts:
        return 'NotNumber'
    minus, front, behind, bits = parts[1], parts[2], parts[3] or '', parts[4]
    if bits is not None and (minus or int(bits) > MOST_SCALE_FRACTION):
        return 'NotNumber'
    if len(front) + len(behind) > MOST_DIGITS:
        return 'TooLong'
    value = Fraction(int(front + behind), 10 ** len(behind))
    if bits is not None:
        fraction = int(bits)
    else:
        exact = [bits for bits in range(MOST_SCALE_FRACTION + 1) if steps(value, bits).denominator == 1]
        if not exact:
            return 'NotBinary'
        fraction = exact[0]
    mantissa = floor(steps(value, fraction))
    if mantissa > MOST_READ:
        return 'TooLong'
    return '%d %d' % (-mantissa if minus else mantissa, fraction)


def decimal(words):
    """The shortest exact decimal of a number, and its length."""
    if len(words) != 2:
        raise NotACall
    a = Number(*words)
    if abs(a.mantissa) > MOST or a.fraction > MOST_FRACTION:
        return OUT
    magnitude, places = abs(a.value), 0
    while (magnitude * 10 ** places).denominator != 1:
        places += 1
    text = ('-' if a.value < 0 else '') + str(floor(magnitude))
    if places > 0:
        text += '.' + str((magnitude - floor(magnitude)) * 10 ** places).rjust(places, '0')
    return '%s %d' % (text, len(text))


def made(words):
    if len(words) != 3:
        raise NotACall
    sign(words[0])
    width, fraction = whole(words[1], 0, 255), whole(words[2], 0, 255)
    return '%s%d.%d' % (words[0], width, fraction) if is_scale(width, fraction) else 'None'


CALLS = {
    'add': by_steps(lambda a, b, fraction: written(a + b, fraction)),
    'sub': by_steps(lambda a, b, fraction: written(a - b, fraction)),
    'compare': by_steps(order),
    'mul': product,
    'div': quotient,
    'neg': negation,
    'fit': fitted,
    'exact': equal,
    'write': decimal,
    'scale': made,
}


def answer(line):
    name, _, rest = line.partition(' ')
    if name == 'read':
        return read(rest)
    try:
        return CALLS[name](rest.split())
    except (KeyError, NotACall):
        return 'not a call'


if __name__ == '__main__':
    print(answer('the head'))
    for line in tables.rows(sys.stdin.buffer):
        print(answer(line))
