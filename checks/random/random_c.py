"""Random files in the subset of C, by c_subset.py and by C compilers.

    python3 checks/random/main.py c --seed S --cases N [--wrong]

A case is a batch of 30 files, or with `--wrong` of 100 wrong expressions: it is one text for the compilers, since starting these
takes long. A file is made statement by statement, each of which is tried by c_subset.py from several structs and locals and is kept
where it isn't Wrong; some of its functions return the value of an expression and no more. It is written, read back by c_subset.py,
which must give the same trees, and its functions are called with a struct of which most has values. A call that is Wrong is left
out. gcc and clang, where they are there, compile it by `-std=c99 -pedantic-errors` with -O0, with -O2, and with -O1 and
`-fsanitize=undefined`. What the calls return and what is in the struct at the end must be what c_subset.py says, and the sanitizers
must report nothing.

A wrong expression is a random one over a struct that c_subset.py finds to be Wrong in a way that a sanitizer sees: a sum,
difference, product, negative or quotient that isn't one of its type, a division by 0, an index outside of its array. The sanitizer
of some compiler must report something where it is evaluated; a compiler may leave out what its value doesn't need. `int` has 32
bits, as it has for these compilers."""
import os
import random
import re
import shutil
import sys
from collections import Counter

import beside                                # noqa: F401, which finds the other folders of checks
import c_subset as c
from campaign import Campaign
from programs import ended

LONGEST = 600               # seconds for one compilation or run
FILES, EXPRESSIONS = 30, 100  # in one batch
FUEL, MOST = 200, 20000      # of one call
ENVIRONMENTS = 5             # in which a statement is tried
VALUES, CALLS = 12, 8        # functions of a file that return the value of an expression, and calls besides one of each function
TRIES = 30                   # for one statement
FLAGS = ['-std=c99', '-pedantic-errors', '-w']
BUILDS = [['-O0'], ['-O2'], ['-O1', '-fsanitize=undefined']]
WAYS = '+ - * / % & | == != < <= > >= && ||'.split()

POSIX = '#define _POSIX_C_SOURCE 200809L'
HEAD = r'''
#include <setjmp.h>
#include <signal.h>
#include <stdio.h>
#include <string.h>
static volatile int64_t high;
static volatile uint64_t low;
static sigjmp_buf back;
static void leave(int number) { (void)number; siglongjmp(back, 1); }
static void stay(void)
{
    struct sigaction how;
    memset(&how, 0, sizeof how);
    how.sa_handler = leave;
    sigaction(SIGFPE, &how, 0);
    sigaction(SIGSEGV, &how, 0);
    sigaction(SIGBUS, &how, 0);
}
__extension__ static __int128 opaque(int64_t h, uint64_t l)
{
    high = h;
    low = l;
    return (__int128)high * 4294967296 * 4294967296 + low;
}
__extension__ static void put(const char *what, __int128 value)
{
    char digits[50];
    int place = 49, sign = value < 0;
    digits[place] = 0;
    do {
        int digit = (int)(value % 10);
        digits[--place] = (char)('0' + (digit < 0 ? -digit : digit));
        value /= 10;
    } while (value != 0);
    printf("%s = %s%s\n", what, sign ? "-" : "", digits + place);
}
'''


# ---- writing

def constant_text(number, kind):
    if number == -2 ** 63:
        return '(-9223372036854775807 - 1)'
    return '%d%s' % (number, 'u' if kind == 'unsigned' and number >= 0 else '')


def constant(number, type_):
    """A constant: without a cast where it has none in the C of a chart."""
    plain = {'int32_t': '%d', 'uint32_t': '%du', 'int64_t': 'INT64_C(%d)', 'uint64_t': 'UINT64_C(%d)'}.get(c.NAMES[type_])
    if plain and number >= 0 and c.holds(type_, number):
        return plain % number
    return '(%s)%s' % (c.NAMES[type_], constant_text(number, type_.kind))


def operand(e):
    text = expression(e)
    return text if isinstance(e, (c.Constant, c.Local, c.Field, c.Element, c.Cast)) else '(%s)' % text


def expression(e):
    """The text of an expression."""
    if isinstance(e, c.Constant):
        return constant(e.number, e.type)
    if isinstance(e, c.Local):
        return e.name
    if isinstance(e, c.Field):
        return 'm->' + e.name
    if isinstance(e, c.Element):
        return 'm->%s[%s]' % (e.array, expression(e.index))
    if isinstance(e, c.Cast):
        part = '(%s)' % expression(e.part) if isinstance(e.part, c.Constant) else operand(e.part)
        return '(%s)%s' % (c.NAMES[e.type], part)
    if isinstance(e, c.Choice):
        return '%s ? %s : %s' % (operand(e.test), operand(e.yes), operand(e.no))
    if isinstance(e, c.Binary):
        is_chain = e.mark in ('&&', '||') and isinstance(e.left, c.Binary) and e.left.mark == e.mark
        return '%s %s %s' % ((expression if is_chain else operand)(e.left), e.mark, operand(e.right))
    return ('-' if isinstance(e, c.Negative) else '!') + operand(e.part)


def choice(test, type_, yes, no):
    """A choice between two expressions, each of which is brought to the type."""
    return c.Choice(test, type_, c.Cast(type_, yes), c.Cast(type_, no))


def call_text(s):
    return '%s = %s(%s);' % (s.local, s.function, ', '.join(['m'] * s.with_m + [expression(each) for each in s.arguments]))


def switch_lines(s, indent):
    yield '%sswitch (%s) {' % (indent, expression(s.value))
    for label, call in s.cases:
        yield '%s    case %s: %s break;' % (indent, constant_text(label, 'unsigned' if label >= 2 ** 63 else 'signed'), call_text(call))
    yield indent + '    default: break;'
    yield indent + '}'


def lines_of(statements, indent):
    """The lines of statements."""
    for s in statements:
        if isinstance(s, c.SetLocal):
            yield '%s%s = %s;' % (indent, s.local, expression(s.value))
        elif isinstance(s, c.SetField):
            yield '%sm->%s = %s;' % (indent, s.name, expression(s.value))
        elif isinstance(s, c.SetElement):
            yield '%sm->%s[%s] = %s;' % (indent, s.array, expression(s.index), expression(s.value))
        elif isinstance(s, c.Call):
            yield indent + call_text(s)
        elif isinstance(s, c.Switch):
            yield from switch_lines(s, indent)
        elif isinstance(s, c.Return):
            yield '%sreturn %s;' % (indent, expression(s.value))
        else:
            yield '%s%s (%s) {' % (indent, 'if' if isinstance(s, c.If) else 'while', expression(s.test))
            yield from lines_of(s.yes if isinstance(s, c.If) else s.body, indent + '    ')
            if isinstance(s, c.If) and s.no:
                yield indent + '} else {'
                yield from lines_of(s.no, indent + '    ')
            yield indent + '}'


def head_of(function, struct):
    parameters = ['%s *m' % struct] * function.with_m
    parameters += ['%s %s' % (c.NAMES[function.locals[name]], name) for name in function.parameters]
    return 'static %s %s(%s)' % (c.NAMES[function.type], function.name, ', '.join(parameters))


def declarations(file, struct):
    """The struct and the prototypes. The last member isn't an array, since a sanitizer doesn't look at the end of that."""
    yield 'typedef struct {'
    yield from ('    %s %s[%d];' % (c.NAMES[type_], name, count) for name, (type_, count) in file.arrays.items())
    yield from ('    %s %s;' % (c.NAMES[type_], name) for name, type_ in file.fields.items())
    yield '} %s;' % struct
    yield from (head_of(function, struct) + ';' for function in file.functions.values())


def file_lines(file, struct):
    """The lines of a file after its opening."""
    yield from declarations(file, struct)
    for function in file.functions.values():
        yield head_of(function, struct)
        yield '{'
        others = [name for name in function.locals if name not in function.parameters]
        yield from ('    %s %s;' % (c.NAMES[function.locals[name]], name) for name in others)
        yield from lines_of(function.body, '    ')
        yield '}'


def joined(lines):
    return ''.join(line + '\n' for line in lines)


def bare(x):
    """A tree without its line numbers and heads, to be compared."""
    if isinstance(x, c.Function):
        return bare(tuple(x)[1:])
    if isinstance(x, tuple):
        fields = getattr(x, '_fields', ())
        return (type(x).__name__,) + tuple(bare(each) for name, each in zip(fields or x, x) if name != 'line' or not fields)
    if isinstance(x, dict):
        return [(name, bare(each)) for name, each in x.items()]
    return [bare(each) for each in x] if isinstance(x, list) else x


# ---- random files

class Random(random.Random):
    """Random choices."""

    def chance(self, share):
        return self.random() < share

    def type(self, wide):
        names = [name for name in c.TYPES if name not in c.WIDE]
        return c.TYPES['flow_int128' if wide and self.chance(0.2) else self.choice(names)]

    def number(self, type_):
        """A number of a type: a small one, one near its ends, or any."""
        if type_.kind == 'bool':
            return self.randrange(2)
        low, high = (0, 2 ** type_.bits - 1) if type_.kind == 'unsigned' else (-2 ** (type_.bits - 1), 2 ** (type_.bits - 1) - 1)
        way = self.random()
        if way < 0.6:
            return min(max(self.randint(-9, 20), low), high)
        if way < 0.8:
            return self.choice([low, low + 1, high, high - 1, high // 2])
        return self.randint(low, high)


class Maker:
    """Makes the expressions of a struct and of locals."""

    def __init__(self, rng, file, wide):
        self.rng, self.file, self.wide = rng, file, wide
        self.names = []                          # the locals that may be read

    def constant(self):
        type_ = self.rng.type(self.wide)
        number = self.rng.number(type_)
        if type_.bits == 128:
            number = max(-2 ** 63, min(number, 2 ** 63 - 1))
        return c.Constant(type_, number)

    def index(self, array):
        """An index that is mostly inside."""
        count = self.file.arrays[array][1]
        if self.rng.chance(0.7):
            return c.Constant(c.TYPES['uint8_t'], self.rng.randrange(count))
        if self.rng.chance(0.2):
            return self.expression(1)
        return c.Binary('%', c.Cast(c.TYPES['uint32_t'], self.expression(1)), c.Constant(c.TYPES['uint32_t'], count))

    def leaf(self):
        way = self.rng.random()
        if way < 0.35 and self.names:
            return c.Local(self.rng.choice(self.names))
        if way < 0.6 and self.file.fields:
            return c.Field(self.rng.choice(list(self.file.fields)))
        if way < 0.7 and self.file.arrays:
            array = self.rng.choice(list(self.file.arrays))
            return c.Element(array, self.index(array))
        return self.constant()

    def expression(self, depth):
        if depth == 0 or self.rng.chance(0.15):
            return self.leaf()
        way = self.rng.random()
        if way < 0.18:
            return c.Cast(self.rng.type(self.wide), self.expression(depth - 1))
        if way < 0.25:
            return c.Negative(self.expression(depth - 1))
        if way < 0.31:
            return c.Not(self.expression(depth - 1))
        if way < 0.41:
            type_ = self.rng.type(self.wide)
            return choice(self.expression(depth - 1), type_, self.expression(depth - 1), self.expression(depth - 1))
        return self.binary(self.rng.choice(WAYS), depth)

    def binary(self, mark, depth):
        left, right = self.expression(depth - 1), self.expression(depth - 1)
        if mark in '&|' and self.rng.chance(0.9):
            left = c.Cast(c.TYPES[self.rng.choice(['uint32_t', 'uint64_t'])], left)
        return c.Binary(mark, left, right)


class Environment:
    """A struct and the locals of a call that is going on."""

    def __init__(self, run, frame):
        self.run, self.frame = run, frame

    def copy(self):
        frame = c.Frame(self.frame.function, self.frame.fuel)
        frame.values = dict(self.frame.values)
        return Environment(copied(self.run), frame)

    def does(self, statements):
        """What the statements return here, or None."""
        return self.run.all(statements, self.frame)


def copied(run):
    """A run with the same struct."""
    other = c.Run(run.file, most=MOST)
    other.fields, other.elements = dict(run.fields), {name: list(numbers) for name, numbers in run.elements.items()}
    return other


def survivors(environments, statements):
    """The environments after the statements, without those that returned; or None where one is Wrong or has no end."""
    left = []
    for each in environments:
        after = each.copy()
        try:
            if after.does(statements) is None:
                left.append(after)
        except c.ENDINGS:
            return None
    return left


class FileMaker:
    """Makes a file whose names end with its number."""

    def __init__(self, rng, number):
        self.rng, self.number, self.wide = rng, number, rng.chance(0.3)
        self.file = c.File({}, {}, {}, {})
        self.maker = Maker(rng, self.file, self.wide)
        self.struct = 's%d' % number
        self.function = None

    def make(self):
        for each in range(self.rng.randint(2, 6)):
            self.file.fields['f%d' % each] = self.rng.type(self.wide)
        for each in range(self.rng.randint(0, 3)):
            self.file.arrays['a%d' % each] = self.rng.type(self.wide), self.rng.randint(1, 5)
        if self.rng.chance(0.5):
            self.floor_function()
        for each in range(self.rng.randint(1, 3)):
            self.make_function('g%d_%d' % (self.number, each))
        for each in range(VALUES):
            self.value_function('v%d_%d' % (self.number, each))
        return self.file

    def value_function(self, name):
        """A function that returns the value of an expression, in a type that holds most of them."""
        type_ = c.TYPES['flow_int128' if self.wide else self.rng.choice(['int64_t', 'int64_t', 'uint64_t'])]
        self.function = c.Function([], type_, name, True, [], {'x0': type_}, [], False)
        self.maker.names = []
        environments = [Environment(self.struct_of(0), c.Frame(self.function, FUEL - 1)) for _ in range(2)]
        others = [each for each in self.file.functions if each.startswith('v')]
        make = (lambda: self.value_switch(environments[0], others)) if others and self.rng.chance(0.3) else self.value_ending
        body = self.kept(environments, make)[0]
        if body:
            self.file.functions[name] = self.function._replace(body=body)

    def value_switch(self, environment, others):
        """A choice between functions of one expression each, and the return of what was called."""
        value = self.switch_value()
        type_ = self.maker_type(value)
        labels = self.labels(type_)
        number = c.brought(environment.run.number(value, environment.frame), type_) if self.rng.chance(0.8) else 0
        labels[number] = number - 2 ** type_.bits if type_.kind == 'unsigned' and self.rng.chance(0.5) else number
        call = c.Call(1, 'x0', '', True, [])
        cases = [(label, call._replace(function=self.rng.choice(others))) for label in labels.values() if -2 ** 63 <= label < 2 ** 63]
        start = c.SetLocal(1, 'x0', c.Constant(c.TYPES['uint8_t'], 77))
        return [start, c.Switch(1, value, cases), c.Return(1, c.Local('x0'))]

    def switch_value(self):
        value = self.maker.expression(2)
        if self.rng.chance(0.4):
            value = c.Cast(c.TYPES[self.rng.choice(['uint32_t', 'uint64_t'])], c.Negative(value))
        return value

    def value_ending(self):
        return [c.Return(1, self.maker.expression(2))]

    def floor_function(self):
        """The function of the page."""
        bits = self.rng.choice([8, 16, 32, 64, 128] if self.wide else [8, 16, 32, 64])
        type_, name = c.Type('signed', bits), 'div%d_%d' % (bits, self.number)
        zero, a, b = c.Constant(type_, 0), c.Local('a'), c.Local('b')
        quotient = c.Binary('/', a, b)
        test = c.Binary('&&', c.Binary('!=', c.Binary('%', a, b), zero),
                        c.Binary('!=', c.Binary('<', a, zero), c.Binary('<', b, zero)))
        e = choice(test, type_, c.Binary('-', quotient, c.Constant(type_, 1)), quotient)
        self.file.functions[name] = c.Function([], type_, name, False, ['a', 'b'], {'a': type_, 'b': type_}, [c.Return(1, e)], False)

    def struct_of(self, share):
        """A run whose members have values, but for a share of them."""
        run = c.Run(self.file, most=MOST)
        for name, type_ in self.file.fields.items():
            run.fields[name] = None if self.rng.chance(share) else self.rng.number(type_)
        for name, (type_, count) in self.file.arrays.items():
            run.elements[name] = [None if self.rng.chance(share) else self.rng.number(type_) for _ in range(count)]
        return run

    def make_function(self, name):
        locals_ = {'x%d' % each: self.rng.type(self.wide) for each in range(self.rng.randint(0, 3))}
        self.function = c.Function([], self.rng.type(self.wide), name, True, list(locals_), locals_, [], False)
        self.maker.names = list(locals_)
        for each in range(len(locals_), len(locals_) + self.rng.randint(1, 3)):
            locals_['x%d' % each] = self.rng.type(self.wide)
        environments = []
        for _ in range(ENVIRONMENTS):
            frame = c.Frame(self.function, FUEL - 1)
            frame.values = {each: self.rng.number(locals_[each]) for each in self.function.parameters}
            environments.append(Environment(self.struct_of(self.rng.choice([0, 0.1])), frame))
        body, left = self.block(environments, 2, self.rng.randint(2, 5))
        self.file.functions[name] = self.function._replace(body=body + self.kept(left, self.ending)[0])

    def ending(self):
        return [c.Return(1, self.maker.expression(2))]

    def kept(self, environments, make):
        """Statements that are Wrong nowhere, or none where none are found, and the environments after them."""
        for _ in range(TRIES):
            try:
                statements = make()
            except c.Wrong:
                continue
            left = survivors(environments, statements)
            if left is not None:
                return statements, left
        return ([c.Return(1, c.Constant(c.BOOL, 1))], []) if make == self.ending else ([], environments)

    def block(self, environments, depth, count):
        body = []
        for _ in range(count):
            way = self.rng.random()
            if depth and way < 0.15:
                made, environments = self.if_(environments, depth)
            elif depth and way < 0.25:
                made, environments = self.kept(environments, lambda: self.while_(environments, depth))
            elif way < 0.28 and depth < 2:
                made, environments = self.kept(environments, self.ending)
            else:
                made, environments = self.kept(environments, self.simple)
            body += made
            if body and isinstance(body[-1], c.Return):
                break
        return body, environments

    def if_(self, environments, depth):
        for _ in range(TRIES):
            test = self.maker.expression(2)
            try:
                yes = [each for each in environments if each.run.number(test, each.frame) != 0]
            except c.Wrong:
                continue
            no = [each for each in environments if each not in yes]
            if yes and no or not environments or self.rng.chance(0.1):
                break
        else:
            return [], environments
        names = list(self.maker.names)
        first, left = self.block(yes, depth - 1, self.rng.randint(1, 3))
        self.maker.names = list(names)
        second, others = self.block(no, depth - 1, self.rng.randint(0, 2))
        self.maker.names = names
        return [c.If(1, test, first, second)], left + others

    def while_(self, environments, depth):
        """A loop of a few turns, with a local of its own that counts them."""
        name = 'n%d' % len(self.function.locals)
        type_ = self.rng.choice([c.TYPES['uint8_t'], c.TYPES['int32_t'], c.TYPES['int64_t']])
        self.function.locals[name] = type_
        start = c.SetLocal(1, name, c.Constant(type_, 0))
        left = survivors(environments, [start])
        names = list(self.maker.names)
        body = self.block(left, depth - 1, self.rng.randint(1, 3))[0]
        self.maker.names = names
        test = c.Binary('<', c.Local(name), c.Constant(type_, self.rng.randint(1, 6)))
        if self.rng.chance(0.3):
            test = c.Binary('&&', test, self.maker.expression(1))
        step = c.SetLocal(1, name, c.Binary('+', c.Local(name), c.Constant(type_, 1)))
        return [start, c.While(1, test, body + [step])]

    def simple(self):
        """A statement without blocks."""
        way = self.rng.random()
        if way < 0.15 and self.file.functions:
            return [self.call(self.rng.choice(list(self.file.functions)))]
        if way < 0.25 and self.file.functions:
            return self.switch()
        if way < 0.5:
            return [c.SetField(1, self.rng.choice(list(self.file.fields)), self.maker.expression(3))]
        if way < 0.65 and self.file.arrays:
            array = self.rng.choice(list(self.file.arrays))
            return [c.SetElement(1, array, self.maker.index(array), self.maker.expression(3))]
        return [c.SetLocal(1, self.local(), self.maker.expression(3))]

    def local(self):
        """A local that is set here, and so may be read from now on."""
        name = self.rng.choice([each for each in self.function.locals if not each.startswith('n')])
        if name not in self.maker.names:
            self.maker.names.append(name)
        return name

    def call(self, name):
        function = self.file.functions[name]
        arguments = [self.maker.expression(1) for _ in function.parameters]
        return c.Call(1, self.local(), name, function.with_m, arguments)

    def switch(self):
        value = self.switch_value()
        first = self.file.functions[self.rng.choice(list(self.file.functions))]
        call = self.call(first.name)
        like = [each.name for each in self.file.functions.values()
                if each.with_m == first.with_m and len(each.parameters) == len(first.parameters)]
        type_ = self.maker_type(value)
        labels = self.labels(type_).values()
        cases = [(label, call._replace(function=self.rng.choice(like))) for label in labels if -2 ** 63 <= label < 2 ** 64]
        if type_.kind == 'signed':
            cases = [each for each in cases if each[0] < 2 ** 63]
        return [c.Switch(1, value, cases)]

    def labels(self, type_):
        """Some labels, by what they become in the type, of which many are near 0 on both sides."""
        labels = [self.rng.randint(-3, 3) if self.rng.chance(0.6) else self.rng.number(type_) for _ in range(self.rng.randint(0, 6))]
        return {c.brought(label, type_): label for label in labels}

    def maker_type(self, value):
        widths = c.Widths(32)
        return widths.promoted(c.known_type(value, self.file, self.function.locals, widths))


# ---- a file with its calls, as C and as lines that are expected

def stored_c(run, number, opaque):
    """The lines of C that give a struct the values of a run."""
    yield 's%d m;' % number
    yield 'memset(&m, 0xa5, sizeof m);'
    for name, value in run.fields.items():
        if value is not None:
            yield 'm.%s = %s;' % (name, number_c(value, run.file.fields[name], opaque))
    for name, values in run.elements.items():
        for place, value in enumerate(values):
            if value is not None:
                yield 'm.%s[%d] = %s;' % (name, place, number_c(value, run.file.arrays[name][0], opaque))


def number_c(value, type_, opaque):
    """A number of a type for the driver; an opaque one isn't known to the compiler."""
    if opaque or not -2 ** 63 < value < 2 ** 63:
        return '(%s)opaque(%s, %du)' % (c.NAMES[type_], constant_text(value >> 64, 'signed'), value % 2 ** 64)
    return '(%s)%d' % (c.NAMES[type_], value)


def shown_c(run):
    """The lines of C that show what has a value, and the lines that are expected."""
    code, lines = [], []
    for name, values in [(name, [value]) for name, value in run.fields.items()] + list(run.elements.items()):
        for place, value in enumerate(values):
            if value is not None:
                member = name if name in run.fields else '%s[%d]' % (name, place)
                code.append('put("%s", m.%s);' % (member, member))
                lines.append('%s = %d' % (member, value))
    return code, lines


def kind_of(wrong):
    """What ended a run, in a few words."""
    return wrong.rule.partition(' is not one')[0].partition(' (')[0] if isinstance(wrong, c.Wrong) else c.ending(wrong)


def called_c(rng, number, run, opaque, met):
    """Lines of C that call functions of a file, and the lines that are expected."""
    code, lines = [], []
    functions = list(run.file.functions.values())
    for function in functions + [rng.choice(functions) for _ in range(CALLS)]:
        arguments = [rng.number(function.locals[each]) for each in function.parameters]
        before = copied(run)
        try:
            returned = run.called(function.name, arguments, FUEL)
        except c.ENDINGS as wrong:
            met['calls left out: ' + kind_of(wrong)] += 1
            run.fields, run.elements = before.fields, before.elements
            continue
        met['calls'] += 1
        words = ['&m'] * function.with_m
        words += [number_c(each, function.locals[name], opaque) for name, each in zip(function.parameters, arguments)]
        code.append('put("%s", %s(%s));' % (function.name, function.name, ', '.join(words)))
        lines.append('%s = %d' % (function.name, returned.number))
    shown, values = shown_c(run)
    return code + shown, lines + values


def opening(wide):
    return c.OPENING + (list(c.WIDE.values()) if wide else [])


def wrong_text(made, text):
    """What is wrong of a file that was made, by its text."""
    try:
        read = c.read(text)
    except c.Refused as refused:
        return [refused.text]
    return [] if bare(read) == bare(made) else ['the text has other trees']


def count_forms(x, met):
    """Counts the forms of a tree."""
    if isinstance(x, dict):
        x = list(x.values())
    if isinstance(x, (tuple, list)):
        if hasattr(x, '_fields') and not isinstance(x, c.Type):
            met['form ' + (x.mark if isinstance(x, c.Binary) else type(x).__name__)] += 1
        for each in x:
            count_forms(each, met)


# ---- the batches

class Comparison:
    """Tries batches, and counts what was met."""

    def __init__(self, seed, keep, folder):
        self.seed, self.keep, self.folder = seed, keep, folder
        self.compilers = [each for each in ('gcc', 'clang') if shutil.which(each)]
        self.met = Counter()

    def differ(self, name, lines, text):
        if not lines:
            return
        os.makedirs(self.keep, exist_ok=True)
        with open(os.path.join(self.keep, 'c %s %s.c' % (self.seed, name)), 'w', encoding='ascii') as file:
            file.write(text)
        print('\n'.join('%s: %s' % (name, line) for line in lines[:6]), flush=True)

    def built(self, compiler, flags, text):
        """How compiling a text and running what it makes ends."""
        with open(os.path.join(self.folder, 'text.c'), 'w', encoding='ascii') as file:
            file.write(text)
        made = ended([compiler, *FLAGS, *flags, 'text.c', '-o', 'made'], LONGEST, cwd=self.folder)
        return made if made.status != 0 else ended([os.path.join(self.folder, 'made')], LONGEST, cwd=self.folder)

    def files(self, batch):
        """Tries the files of a batch."""
        rng = Random('files %s %d' % (self.seed, batch))
        texts, drivers, expected = [], [], []
        for number in range(FILES):
            maker = FileMaker(rng, number)
            file = maker.make()
            lines = list(file_lines(file, maker.struct))
            text = joined(opening(maker.wide) + lines)
            self.differ('batch %d file %d' % (batch, number), wrong_text(file, text), text)
            run, opaque = maker.struct_of(0.1), rng.chance(0.5)
            driver = list(stored_c(run, number, opaque))
            calls, answers = called_c(rng, number, run, opaque, self.met)
            texts += lines
            drivers += ['static void case%d(void) {' % number] + driver + calls + ['}']
            expected += ['case %d' % number] + answers
            count_forms(file.functions, self.met)
            self.met['files'] += 1
        main = ['int main(void) {'] + ['puts("case %d"); case%d();' % (each, each) for each in range(FILES)] + ['return 0; }']
        self.compare_files(batch, joined([POSIX] + opening(True) + [HEAD] + texts + drivers + main), joined(expected))

    def compare_files(self, batch, text, expected):
        for compiler in self.compilers:
            for flags in BUILDS:
                name = 'batch %d by %s %s' % (batch, compiler, ' '.join(flags))
                told = self.built(compiler, flags, text)
                self.met['builds by ' + compiler] += 1
                if (told.out, told.error, told.status) != (expected, '', 0):
                    self.differ(name, different(expected, told), text)

    def expressions(self, batch):
        """Tries the wrong expressions of a batch."""
        rng = Random('expressions %s %d' % (self.seed, batch))
        texts, drivers, rules = [], [], []
        for number in range(EXPRESSIONS):
            run, e, rule = wrong_expression(rng)
            struct = 's%d' % number
            function = c.Function([], c.BOOL, 'w%d' % number, True, [], {}, [c.Return(1, e)], False)
            run.file.functions[function.name] = function
            texts += file_lines(run.file, struct)
            drivers += ['static void case%d(void) {' % number, *stored_c(run, number, True), '(void)w%d(&m);' % number, '}']
            rules.append(rule)
        main = ['int main(void) {', 'stay();']
        main += ['fputs("case %d\\n", stderr); if (!sigsetjmp(back, 1)) case%d();' % (each, each) for each in range(EXPRESSIONS)]
        self.compare_expressions(batch, joined([POSIX] + opening(True) + [HEAD] + texts + drivers + main + ['return 0; }']), rules)

    def compare_expressions(self, batch, text, rules):
        seen = [Counter() for _ in rules]
        for compiler in self.compilers:
            told = self.built(compiler, ['-O0', '-fsanitize=undefined'], text)
            reports = re.split(r'(?m)^case [0-9]+$', told.error)[1:]
            if told.status != 0 or len(reports) != len(rules):
                self.differ('expressions %d by %s' % (batch, compiler), ['status %s, %s' % (told.status, told.error[-300:])], text)
            for number, (report, rule) in enumerate(zip(reports, rules)):
                seen[number]['any'] += 'runtime error' in report
                self.met['%s reports: %s' % (compiler, rule)] += 'runtime error' in report
                self.met['%s reports such a thing: %s' % (compiler, rule)] += bool(re.search(SEEN[rule], report))
        for number, rule in enumerate(rules):
            self.met['wrong: ' + rule] += 1
            if not seen[number]['any']:
                self.differ('expressions %d number %d' % (batch, number), ['no sanitizer reports: ' + rule], text)


SEEN = {'a sum': 'signed integer overflow.* \\+ ', 'a difference': 'signed integer overflow.* - ',
        'a product': 'signed integer overflow.* \\* ', 'a negative': 'negation of', 'a division by 0': 'division by zero',
        'a quotient': 'by -1 cannot be represented', 'an index is outside of its array': 'out of bounds'}


def edge_struct(rng):
    """What makes expressions over a struct, and a run in which its fields have values that make many of them Wrong."""
    maker, types = FileMaker(rng, 0), ['int32_t', 'int64_t']
    fields = [c.TYPES[rng.choice(types)], c.TYPES[rng.choice(['int8_t'] + types)], rng.type(maker.wide), rng.type(maker.wide)]
    maker.file.fields.update(('f%d' % number, type_) for number, type_ in enumerate(fields))
    maker.file.arrays['a0'] = rng.type(False), rng.randint(1, 4)
    run = maker.struct_of(0)
    run.fields.update(f0=-2 ** (fields[0].bits - 1), f1=-1, f2=0)
    return maker.maker, run


def wrong_expression(rng):
    """A struct, an expression that is Wrong in it in a way that a sanitizer sees, and the way."""
    wanted = rng.choice(list(SEEN))
    while True:
        maker, run = edge_struct(rng)
        e = rng.choice([maker.expression, lambda depth: c.Negative(maker.expression(depth)),
                        lambda depth: maker.binary(rng.choice('+-*/%'), depth),
                        lambda depth: c.Element('a0', maker.expression(depth))])(2)
        try:
            run.value(e, c.Frame(None, 0))
        except c.Wrong as wrong:
            if kind_of(wrong) == wanted:
                return run, e, wanted


def different(expected, told):
    """What differs of the lines that a build wrote."""
    lines = [] if told.status == 0 else ['status %s' % told.status]
    lines += [line for line in told.error.split('\n')[:4] if line]
    old, new = expected.split('\n'), told.out.split('\n')
    at = next((i for i, pair in enumerate(zip(old, new)) if pair[0] != pair[1]), min(len(old), len(new)))
    if told.out != expected:
        case = [line for line in old[:at] if line.startswith('case')][-1:]
        lines.append('in %s %r, and by c_subset.py %r' % (''.join(case), new[at:at + 1], old[at:at + 1]))
    return lines


def add_options(reader):
    reader.add_argument('--wrong', action='store_true')


def campaign(options, folder):
    """Tries batches of files, or of wrong expressions; main.py calls it."""
    sys.setrecursionlimit(100000)
    comparison = Comparison(options.seed, options.keep, folder)
    if not comparison.compilers:
        raise SystemExit('there is neither gcc nor clang')
    return Campaign(comparison.expressions if options.wrong else comparison.files,
                    lambda: {'compilers ' + ' '.join(comparison.compilers): comparison.met})
