"""What the header of a chart's C offers, read out of its text: names, numbers and fields as they stand there."""
import re
from typing import NamedTuple, Optional

ENUM = re.compile(r'enum\s+\{\s+(\w+)\s+=\s+(\d+)\s+\};')      # a long line is broken at any blank
SUM = re.compile(r'enum\s+\{\s+(?:\w+_SUM_[0-3]\s+=\s+0x[0-9a-f]{4}(?:,\s+)?){4}\s+\};')
STRUCT = re.compile(r'typedef struct \{\n(.*?)\n\}\s+(\w+)_chart;', re.DOTALL)
FIELD = re.compile(r'\s*(\w+)\s+(\w+)(?:\[(\d+)\])?;\s+/\*\s+(.*?)\s+\*/', re.DOTALL)
TEST = re.compile(r'/\*\s+Whether\s+([\w/]+)\s+is\s+active\.\s+\*/\nstatic\s+inline\s+bool\s+(\w+)\(const\s+\w+\s+\*m\)\n'
                  r'\{\n    return\s+(.*?);\n\}', re.DOTALL)
CHILDREN = re.compile(r'the active child of [^:]+: (.*)')
BIT = re.compile(r'\(m->(flags_\d+) & (\d+)u\) != 0u')
SIZES = {'bool': 1, **{'%sint%d_t' % (sign, bits): bits // 8 for sign in ('', 'u') for bits in (8, 16, 32, 64)}}


class NoHeader(Exception):
    """The text isn't the header of the chart's C; the text says why."""


class Field(NamedTuple):
    """A field of the struct: its type in C, its name, how many entries it has where it is an array, its comment, and where it
    stands where each field is aligned to its size, as on ARM, RISC-V and x86-64."""
    type: str
    name: str
    length: Optional[int]
    comment: str
    offset: int

    def size(self):
        return SIZES[self.type]


class Test(NamedTuple):
    """Whether a state is active: the function, and the field and the bits of it that are tested, where it is one test of bits."""
    function: str
    field: str
    bits: int


class Interface:
    """The names of a header. `prefix` is what the names of the chart begin with, and `sum` the sum of the chart."""

    def __init__(self, header):
        header = header.replace('\\\n', '')                  # lines that a backslash joins (5.1.1.2 p1)
        struct = STRUCT.search(header)
        if not struct:
            raise NoHeader('it has no struct of a chart')
        self.prefix = struct[2]
        self.constants = {name[len(self.prefix) + 1:]: int(value) for name, value in ENUM.findall(header)}
        self.sum = sum_of(header)
        self.fields, self.size = fields_of(struct[1])
        self.tests = {path: test_of(name, body) for path, name, body in TEST.findall(header)}

    def event(self, name):
        """The number of an input or output event; of a local one there is none."""
        return self.constants.get('E_' + name)

    def tick(self):
        return self.constants['TICK']

    def allowance(self):
        """The line that allows functions of the source to call themselves, where they may; with it the files that need the header
        begin."""
        return '' if self.constants['CALLS'] else '#define %s_MAY_RECURSE\n' % self.prefix

    def faults(self):
        """The faults by their names in small letters."""
        return {name[len('FAULT_'):].lower(): value for name, value in self.constants.items() if name.startswith('FAULT_')}

    def field(self, name):
        """The field of a name. NoHeader where there is none."""
        found = next((each for each in self.fields if each.name == name), None)
        if found is None:
            raise NoHeader('it has no field %s' % name)
        return found

    def children(self):
        """Each field with the active child of an OR, and the names of its children by their numbers."""
        for field in self.fields:
            found = CHILDREN.fullmatch(' '.join(field.comment.split()))
            if found:
                yield field, {int(number): name for number, name in re.findall(r'(\d+) (\w+)', found[1])}


def sum_of(header):
    """The sum of the chart, whose four parts a header has. NoHeader where there are none."""
    found = SUM.search(header)
    if not found:
        raise NoHeader('it has no sum of a chart')
    return ''.join(re.findall(r'0x(\w{4})', found[0]))


def fields_of(text):
    """The fields of a struct, and its size."""
    offset, widest, found = 0, 1, []
    for type_, name, length, comment in FIELD.findall(text):
        if type_ not in SIZES:
            raise NoHeader('its field %s has the type %s' % (name, type_))
        size = SIZES[type_]
        offset, widest = aligned(offset, size), max(widest, size)
        found.append(Field(type_, name, int(length) if length else None, comment, offset))
        offset += size * int(length or 1)
    return found, aligned(offset, widest)


def aligned(offset, size):
    return -(-offset // size) * size


def test_of(function, body):
    bit = BIT.fullmatch(' '.join(body.split()))
    return Test(function, bit[1], int(bit[2])) if bit else Test(function, '', 0)
