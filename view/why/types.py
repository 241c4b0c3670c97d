"""What to write instead of a type that the language doesn't have, and what a type's values are, in words."""
import re

import common                                # noqa: F401, which finds the folder checks
from chart_check import ends_of
from chart_rules import value_text
from chart_syntax import scale_text
from fractions import Fraction
from math import floor

FIXED = ('write `sfix32_En16`, which goes from -32768 to almost 32768 in steps of 1/65536, or another range and step: there are '
         'no floating-point numbers')
CASES = 'there are no enumerations: number the cases in a `uint8`'
PARTS = 'there are no structures: declare a datum for each part'
ITSELF = 'write the type itself, as `int16`'
FOR = {
    **dict.fromkeys(('double', 'single', 'float', 'real', 'half', 'real_T', 'real32_T'), FIXED),
    **dict.fromkeys(('boolean', 'logical', 'Boolean', 'boolean_T', '_Bool'), 'write `bool`'),
    **dict.fromkeys(('enum', 'Enum'), CASES), **dict.fromkeys(('struct', 'Bus'), PARTS),
    **dict.fromkeys(('Inherit', 'inherit'), ITSELF), **dict.fromkeys(('int', 'signed'), 'write the width, as `int32`'),
    **dict.fromkeys(('uint', 'unsigned'), 'write the width, as `uint32`'), 'integer': 'write the width, as `int16`',
    'short': 'write `int16`', 'long': 'write `int32` or `int64`', 'char': 'write `int8` or `uint8`', 'byte': 'write `uint8`',
    'string': 'there are no texts: number the cases',
}


def type_advice(after):
    """What to write instead of the type that begins a text, or None where nothing is known."""
    made = re.match(r'fixdt\(\s*(0|1|true|false)\s*,\s*(\d+)\s*(?:,\s*(\d+)\s*)?\)', after)
    if made:
        return 'write `%sfix%s_En%s`' % ('s' if made[1] in ('1', 'true') else 'u', made[2], made[3] or '0')
    if after.startswith('fixdt'):
        return 'write `sfixW_EnF` or `ufixW_EnF`, with a width W and F bits after the point'
    found = re.match(r'[A-Za-z]\w*', after)
    if not found:
        return None
    name = found[0]
    if name in FOR:
        return FOR[name]
    c_type = re.fullmatch(r'(u?)int(8|16|32|64)_[tT]', name)
    if c_type:
        return 'write `%sint%s`' % c_type.groups()
    other = re.fullmatch(r'(u?)int(\d+)', name)
    if other:
        return 'write `%sfix%s`' % ('u' if other[1] else 's', other[2]) + (
            '' if 1 <= int(other[2]) <= 64 else ', with a width of 1 to 64')
    fixed = re.fullmatch(r'([su])fix(\d+)(?:_?En(\d+))?', name)
    if fixed:
        return fixed_advice(*fixed.groups())
    return 'a type is `bool`, `int8` to `int64`, `uint8` to `uint64`, `sfixW_EnF` or `ufixW_EnF`'


def fixed_advice(sign, width, fraction):
    """What is wrong with a fixed-point type."""
    if width.startswith('0') or (fraction or '0').startswith('0') and fraction not in ('0', None):
        return 'write the width and the fraction without leading zeros'
    if not 1 <= int(width) <= 64:
        return 'the width is 1 to 64'
    if int(fraction or 0) > min(int(width), 32):
        return 'the fraction is at most 32, and at most the width'
    return 'write `%sfix%s_En%s`' % (sign, width, fraction or 0)


def range_text(scale):
    """The values of a type in words."""
    least, greatest = (value_text(Fraction(end, 2 ** scale.fraction)) for end in ends_of(scale))
    step = '' if scale.fraction == 0 else ' in steps of 1/%d' % 2 ** scale.fraction
    return '%s goes from %s to %s%s' % (scale_text(scale), least, greatest, step)


def nearest_text(scale, number):
    """The values of a type that are nearest to a number which is none of them."""
    least, greatest = ends_of(scale)
    mantissa = number * 2 ** scale.fraction
    below = max(least, min(greatest, floor(mantissa)))
    above = max(least, min(greatest, floor(mantissa) + 1))
    found = [value_text(Fraction(each, 2 ** scale.fraction)) for each in dict.fromkeys((below, above))]
    return 'the nearest value is %s' % found[0] if len(found) == 1 else 'the nearest values are %s and %s' % tuple(found)
