"""Reads a file of ASAP2, as far as flownames writes one, and the values of a struct by it."""
import re
import struct
from fractions import Fraction
from typing import NamedTuple

LETTERS = {'UBYTE': 'B', 'SBYTE': 'b', 'UWORD': 'H', 'SWORD': 'h', 'ULONG': 'I', 'SLONG': 'i', 'A_UINT64': 'Q', 'A_INT64': 'q'}
MEASUREMENT = re.compile(r'/begin MEASUREMENT (\S+) "([^"]*)"\s+(\w+) (\S+) 0 0 (\S+) (\S+)\s+ECU_ADDRESS 0x([0-9A-F]+)'
                         r'(?: SYMBOL_LINK "(\w+)" (\d+))?( READ_WRITE)?(?: BIT_MASK 0x([0-9A-F]+))?\s+/end MEASUREMENT')
LINEAR = re.compile(r'/begin COMPU_METHOD (\S+) "[^"]*"\s+LINEAR "%\d+\.\d+" "" COEFFS_LINEAR (\S+) 0\s+/end COMPU_METHOD')
WORDS = re.compile(r'/begin COMPU_METHOD (\S+) ""\s+TAB_VERB "%\d+\.0" "" COMPU_TAB_REF (\S+)\s+/end COMPU_METHOD')
TABLE = re.compile(r'/begin COMPU_VTAB (\S+) ""\s+TAB_VERB (\d+)((?:\s+\d+ "\w+")*)\s+/end COMPU_VTAB')
BLOCK = re.compile(r'/(begin|end) (\w+)')


class Measurement(NamedTuple):
    """A measurement with its ends, and its address from the start of the struct on."""
    name: str
    type: str
    method: str
    least: Fraction
    greatest: Fraction
    offset: int
    bits: int

    def value(self, methods, data):
        """The number or the word that it is in the bytes of a struct, and whether it lies within its ends."""
        letter = LETTERS[self.type]
        whole, = struct.unpack_from('=' + letter, data, self.offset)
        if self.bits:
            whole = (whole & self.bits) // (self.bits & -self.bits)
        method = methods[self.method]
        value = method[whole] if isinstance(method, dict) else whole * method
        return value, self.least <= (whole if isinstance(method, dict) else value) <= self.greatest


def read(text, address):
    """The measurements and the methods of a file whose struct stands at an address. ValueError where blocks don't nest, where a
    block is in another form, or where a name stands twice."""
    open_blocks = []
    for word, name in BLOCK.findall(text):
        if word == 'begin':
            open_blocks.append(name)
        elif not open_blocks or open_blocks.pop() != name:
            raise ValueError('/end %s' % name)
    tables = {name: {int(number): word for number, word in re.findall(r'(\d+) "(\w+)"', rows)}
              for name, count, rows in TABLE.findall(text) if len(re.findall('"', rows)) == 2 * int(count)}
    methods = {**{name: Fraction(step) for name, step in LINEAR.findall(text)},
               **{name: tables[table] for name, table in WORDS.findall(text)}}
    found = [Measurement(each[0], each[2], each[3], Fraction(each[4]), Fraction(each[5]), int(each[6], 16) - address,
                         int(each[10] or '0', 16)) for each in MEASUREMENT.findall(text)]
    counts = [text.count('/begin ' + word) for word in ('MEASUREMENT', 'COMPU_METHOD', 'COMPU_VTAB')]
    listed = re.search('REF_MEASUREMENT (.*?) /end', text)[1].split()
    if open_blocks or counts != [len(found), len(methods), len(tables)] or listed != [each.name for each in found]:
        raise ValueError('it has other blocks than are read')
    if len({each.name for each in found}) < len(found):
        raise ValueError('a name stands twice')
    return {each.name: each for each in found}, methods
