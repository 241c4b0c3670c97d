#!/usr/bin/env python3
r"""The subset of C that docs/C_SUBSET.md defines, read and run by the words of that page alone.

    python3 checks/reference/c_subset.py [--int W] [--fuel N] FILE DEED ..
    python3 checks/reference/c_subset.py --table [--check] < checks/tables/c_table.txt

FILE is a source of C in the grammar of the page, with its header beside it. Anything else is refused, with the line. The deeds are
done one after the other, with one struct, in which nothing has a value at first. They are

    f(1, -2)      calls the function, with m where it has that parameter, and writes `f(1, -2) = 7`
    f=3           gives the field a value of its type; so does a[2]=3 with an element
    show          writes each member of the struct with what it has, such as `f = 3`, `g = unset` and `a = 0 unset 5`

What has no rule on the page ends the run: `Wrong in line L: ` and the rule, with the clause of C99. A call that needs more fuel
than N ends it with `without fuel`, and one that needs too many calls and turns with `no end in N calls and turns`. `int` has W
bits, 16, 32 or 64, and 32 where nothing is said. The status is 0 where all deeds were done, 1 where the run ended before, 2 where
the file or a deed is refused.

Where the page leaves something open, this is how it is read here
    Spelling: an operand is a local, `m->f`, `m->a[e]`, a constant, or stands in parentheses, which may stand around any operand. A
    cast of an operand is one too. Comments `/* .. */`, spaces and line feeds may stand between words. There is no backslash and no `??`.
    The header stands where the source includes it, and the source need not have one. The first lines include `<stdint.h>`,
    `<stdbool.h>` where `bool`, `true` or `false` is used, and `<limits.h>` where UINT_MAX is. The struct has at least one member, and
    each array at least one element. Two functions, two members and two locals of a function have different names, no local has the
    name of a function, and none of them is a word of C or begins with `_`. A prototype is the head of its function with `;`.
    Constants: C is 0 or has no 0 in front. `(T)C` is followed by `u` where T has no sign, and may be so where T is `bool`. Without `u`
    it is below 2^63, with it below 2^64. A negative one has no `u`, and -2^63 is `(-9223372036854775807 - 1)`. C alone is one of
    `int`, and Cu one of the unsigned type with so many bits.
    Labels: labels are written as C, with or without `u`. Where the type of e is known, no two labels are the same in its
    promoted type. A label after the one that equals the value isn't brought to the type.
    Fuel: each test of a `while` takes a turn, also the one that finds 0.

A table has the form of tables.py, in blocks, with the parts

    int W, fuel N     for this block
    struct MEMBERS    the members of the struct, on one line; `int8_t f;` where nothing is said
    function TEXT     a function on one line; the prototypes are made of these
    line TEXT         a line of the file; such lines stand for the whole file, and then there is no struct and no function
    wide              the file has the lines that name the types of 128 bits
    do DEED           a deed
    e EXPRESSION      an expression over the struct, whose value and type are the answer

The answer is what is written."""
import os
import re
import sys
from collections import namedtuple

import tables
from programs import parser

USUAL_INT, USUAL_FUEL = 32, 100000
MOST_WORK = 20000000                # calls and turns of one run
DEEPEST = 1000000                   # calls of Python in one another
OPENING = ['#include <stdint.h>', '#include <stdbool.h>']
WIDE = {'flow_int128': '__extension__ typedef __int128 flow_int128;',
        'flow_uint128': '__extension__ typedef unsigned __int128 flow_uint128;'}
# the lines of a header and a source that begin with `#`
INCLUDE = re.compile('#include <(limits|stdbool|stdint)[.]h>')
OWN_HEADER = re.compile('#include "([A-Za-z0-9_]+)[.]h"')
GUARD = re.compile('#(?:ifndef|define) ([A-Za-z][A-Za-z0-9_]*_H)')
INT_TEST = ['#if UINT_MAX != 4294967295u || INT_MAX != 2147483647 || INT_MIN != -2147483647 - 1',
            '#error "int must have 32 bits, and two\'s complement"', '#endif']
WIDE_TEST = ['#if !defined(__SIZEOF_INT128__)', '#error "the source computes in 128 bits: it needs __int128"', '#endif']
RECURSION = re.compile('#if !defined[(]([A-Za-z][A-Za-z0-9_]*_MAY_RECURSE)[)]')
TOLD = re.compile('#define ([A-Za-z][A-Za-z0-9_]*_MAY_RECURSE)')
RECURSION_ERROR = '#error "functions may call themselves: where they may, define %s"'
CPLUSPLUS = re.compile('#ifdef __cplusplus\n(?:extern "C" {|})\n#endif\n')     # a compiler of C passes over such lines

Type = namedtuple('Type', 'kind bits')                       # the kind is 'signed', 'unsigned' or 'bool'
Value = namedtuple('Value', 'number type')
BOOL = Type('bool', 1)
TYPES = {'bool': BOOL, 'flow_int128': Type('signed', 128), 'flow_uint128': Type('unsigned', 128)}
TYPES.update(('int%d_t' % bits, Type('signed', bits)) for bits in (8, 16, 32, 64))
TYPES.update(('uint%d_t' % bits, Type('unsigned', bits)) for bits in (8, 16, 32, 64))
NAMES = {each: name for name, each in TYPES.items()}

# expressions
Constant = namedtuple('Constant', 'type number')
Local = namedtuple('Local', 'name')
Field = namedtuple('Field', 'name')
Element = namedtuple('Element', 'array index')
Cast = namedtuple('Cast', 'type part')
Negative = namedtuple('Negative', 'part')
Not = namedtuple('Not', 'part')
Binary = namedtuple('Binary', 'mark left right')
Choice = namedtuple('Choice', 'test type yes no')             # the type is that of both arms

# statements, each with its line
SetLocal = namedtuple('SetLocal', 'line local value')
SetField = namedtuple('SetField', 'line name value')
SetElement = namedtuple('SetElement', 'line array index value')
Call = namedtuple('Call', 'line local function with_m arguments')     # the local is None where what is returned isn't used
Switch = namedtuple('Switch', 'line value cases')            # the cases are pairs of a label and a call
If = namedtuple('If', 'line test yes no')
While = namedtuple('While', 'line test body')
Return = namedtuple('Return', 'line value')

# A function: its head as it is written, its parameters as names in their order, and the types of its locals, parameters among them.
Function = namedtuple('Function', 'head type name with_m parameters locals body is_inline')
# A file: the types of its fields, the types and lengths of its arrays, its functions by name, and the numbers that it defines.
File = namedtuple('File', 'fields arrays functions constants')


class Refused(Exception):
    """The file or a deed isn't one that the page allows."""

    def __init__(self, line, reason):
        super().__init__(line, reason)
        self.text = 'refused in line %s: %s' % (line, reason) if line else 'refused: ' + reason


class Wrong(Exception):
    """The run came to something for which the page has no rule."""

    def __init__(self, rule):
        super().__init__(rule)
        self.rule, self.line = rule, None


class NoFuel(Exception):
    """A call or a turn had no fuel."""


class Late(Exception):
    """The run takes too many calls and turns for this program."""


# ---- types and conversions

def holds(type_, number):
    """Whether a number is one of the type."""
    if type_.kind == 'signed':
        return -2 ** (type_.bits - 1) <= number < 2 ** (type_.bits - 1)
    return 0 <= number < 2 ** type_.bits


def brought(number, type_):
    """What a number is in a type: 6.3.1.2 and 6.3.1.3."""
    if type_.kind == 'bool':
        return 0 if number == 0 else 1
    if type_.kind == 'unsigned':
        return number % 2 ** type_.bits
    if not holds(type_, number):
        raise Wrong('a value that is not one of %s is brought to it (6.3.1.3 p3)' % NAMES[type_])
    return number


def result(number, type_, what):
    """The exact result of arithmetic in a type, reduced where it is unsigned."""
    if type_.kind == 'unsigned':
        return Value(number % 2 ** type_.bits, type_)
    if not holds(type_, number):
        raise Wrong('%s is not one of %s (6.5 p5)' % (what, NAMES[type_]))
    return Value(number, type_)


class Widths:
    """What depends on how many bits `int` has."""

    def __init__(self, int_bits):
        self.int = Type('signed', int_bits)

    def promoted(self, type_):
        """The promoted type: 6.3.1.1 p2."""
        return self.int if type_.kind == 'bool' or type_.bits < self.int.bits else type_

    def common(self, left, right):
        """The type of the usual arithmetic conversions: 6.3.1.8 p1."""
        left, right = self.promoted(left), self.promoted(right)
        if left.kind == right.kind:
            return max(left, right, key=lambda each: each.bits)
        signed, unsigned = (left, right) if left.kind == 'signed' else (right, left)
        return unsigned if unsigned.bits >= signed.bits else signed


def known_type(e, file, locals_, widths):
    """The type of an expression, or None where it has a field or an array that isn't there."""
    if isinstance(e, (Constant, Cast)):
        return e.type
    if isinstance(e, Local):
        return locals_[e.name]
    if isinstance(e, Field):
        return file.fields.get(e.name)
    if isinstance(e, Element):
        return file.arrays.get(e.array, (None, 0))[0]
    if isinstance(e, Choice):
        return widths.promoted(e.type)
    if isinstance(e, Negative):
        part = known_type(e.part, file, locals_, widths)
        return part and widths.promoted(part)
    if isinstance(e, Not) or e.mark not in '+-*/%&|':
        return widths.int
    left, right = (known_type(each, file, locals_, widths) for each in (e.left, e.right))
    return left and right and widths.common(left, right)


# ---- words

TOKEN = re.compile(r'''
    (?P<space>[ \n]+|/\*.*?\*/)
  | (?P<directive>\#[^\n]*)
  | (?P<name>[A-Za-z_][A-Za-z_0-9]*)
  | (?P<number>(?:0x[0-9a-f]+|(?:0|[1-9][0-9]*)u?)(?![A-Za-z_0-9.]))
  | (?P<mark>->|\+\+|--|<<|>>|<=|>=|==|!=|&&|\|\||//|[-+*/%&|<>=!?:;,(){}\[\]])''', re.S | re.X)
Token = namedtuple('Token', 'kind text line')                # a line of a header has its name before its number
KEYWORDS = set('''auto break case char const continue default do double else enum extern float for goto if inline int long register
    restrict return short signed sizeof static struct switch typedef union unsigned void volatile while true false m'''.split())
MARKS = '+ - * / % & | == != < <= > >= && ||'.split()


def tokens(text, headers, name=''):
    """The words of a text, without spaces and comments, and with those of the headers of the same program in their place."""
    found, place, number = [], 0, 1
    text = CPLUSPLUS.sub('\n\n\n', text).replace('\\\n', '')          # lines are joined (5.1.1.2 p1, 2)
    for strange in ('\\', '??'):
        if strange in text:
            raise Refused(text[:text.index(strange)].count('\n') + 1, 'no word has ' + strange)
    while place < len(text):
        match, line = TOKEN.match(text, place), '%s:%d' % (name, number) if name else number
        if match is None:
            raise Refused(line, 'no word begins with %r' % text[place:place + 8])
        included = OWN_HEADER.fullmatch(match[0])
        if included and included[1] + '.h' in headers and not name:
            found += tokens(headers[included[1] + '.h'], {}, included[1] + '.h')
        elif match.lastgroup != 'space':
            found.append(Token(match.lastgroup, match[0], line))
        number += match[0].count('\n')
        place = match.end()
    return found


class Directives:
    """What the lines that begin with `#` say."""

    def __init__(self, lines, int_bits):
        self.included, self.told, self.int_bits, self.open = set(), set(), int_bits, None
        lines, line = list(lines), None
        while lines:
            line = lines.pop(0)
            three = [each.text for each in [line] + lines[:2]]
            if three == INT_TEST:
                self.test_int(line.line)
                del lines[:2]
            elif three == WIDE_TEST:
                del lines[:2]
            elif self.is_about_recursion(three):
                self.test_recursion(line)
                del lines[:2]
            else:
                self.directive(line)
        if self.open:
            raise Refused(line.line, '#endif is missing')

    @staticmethod
    def is_about_recursion(three):
        """Whether these lines ask that it is told that functions may call themselves."""
        name = RECURSION.fullmatch(three[0])
        return bool(name) and three[1:] == [RECURSION_ERROR % name[1], '#endif']

    def test_recursion(self, token):
        if RECURSION.fullmatch(token.text)[1] not in self.told:
            raise Refused(token.line, 'it is not told that functions may call themselves')

    def test_int(self, line):
        if 'limits' not in self.included:
            raise Refused(line, 'UINT_MAX is of limits.h')
        if self.int_bits != 32:
            raise Refused(line, 'int must have 32 bits')

    def directive(self, token):
        text, line = token.text, token.line
        if INCLUDE.fullmatch(text):
            self.included.add(INCLUDE.fullmatch(text)[1])
        elif GUARD.fullmatch(text) and text.startswith('#ifndef') and not self.open:
            self.open = GUARD.fullmatch(text)[1]
        elif text == '#define %s' % self.open:
            pass
        elif TOLD.fullmatch(text):
            self.told.add(TOLD.fullmatch(text)[1])
        elif text == '#endif' and self.open:
            self.open = None
        else:
            raise Refused(line, 'no line is `%s`' % text)


class Reader:
    """Reads a file in the grammar of the page."""

    def __init__(self, text, int_bits, headers=()):
        words = tokens(text, headers or {})
        directives = Directives([each for each in words if each.kind == 'directive'], int_bits)
        last = words[-1].line if words else 1
        self.tokens = [each for each in words if each.kind != 'directive'] + [Token('end', 'the end', last)]
        self.place, self.widths, self.included = 0, Widths(int_bits), directives.included
        self.types, self.file, self.struct = {}, File({}, {}, {}, {}), None
        self.prototypes, self.locals, self.with_m, self.only_reads, self.wide_names = {}, {}, False, False, {}
        self.declared, self.undeclared = {}, []             # heads of functions by name; calls that stand before all of them

    # -- single words

    def line(self):
        return self.tokens[self.place].line

    def ahead(self, *texts):
        """Whether these words come next."""
        return [each.text for each in self.tokens[self.place:self.place + len(texts)]] == list(texts)

    def refuse(self, reason):
        raise Refused(self.line(), reason)

    def next(self, kind, what):
        """The next word, which must be of this kind."""
        token = self.tokens[self.place]
        if token.kind != kind:
            self.refuse('%s is wanted, not `%s`' % (what, token.text))
        self.place += 1
        return token.text

    def take(self, text):
        """Goes past these words, where they come next."""
        words = text.split()
        if not self.ahead(*words):
            return False
        self.place += len(words)
        return True

    def want(self, text):
        """Goes past words that must come next."""
        for word in text.split():
            if not self.take(word):
                self.refuse('`%s` is wanted, not `%s`' % (word, self.tokens[self.place].text))

    def new_name(self, taken, what):
        """A name that isn't a word of C and isn't taken."""
        name = self.next('name', 'the name of a ' + what)
        if name in KEYWORDS or name in TYPES or name in self.wide_names or name.startswith('_'):
            self.refuse('`%s` cannot be a name' % name)
        if name in taken:
            self.refuse('the name `%s` is taken' % name)
        return name

    def type_ahead(self):
        text = self.tokens[self.place].text
        return text in TYPES or text in self.wide_names

    def type(self):
        name = self.next('name', 'a type')
        own = self.wide_names.get(name, name)
        if own not in self.types:
            self.refuse('`%s` is no type of this file' % name)
        return TYPES[own]

    def count(self):
        text = self.next('number', 'a number of elements')
        if text.endswith('u') or text == '0':
            self.refuse('an array has at least one element, and no `u`')
        return int(text)

    # -- the file

    def whole_file(self):
        """The header and the source: types, the struct, prototypes, and functions with the inline ones of the header before."""
        if 'stdint' not in self.included:
            self.refuse('a file includes stdint.h')
        self.types = set(TYPES) - set(WIDE) - (set() if 'stdbool' in self.included else {'bool'})
        self.wide_types()
        self.constants()
        self.members()
        while self.tokens[self.place].kind != 'end':
            if self.take('static inline'):
                self.inline_function()
            elif self.tokens[self.place].text == '__extension__':
                self.wide_types()
            elif self.take('typedef char'):
                self.fitting_type()
            else:
                self.prototype_or_function()
        for name in self.prototypes:
            if name not in self.file.functions:
                self.refuse('there is no function `%s`' % name)
        for name, line in self.undeclared:
            if name in self.file.functions:
                raise Refused(line, '`%s` is called before it is declared' % name)
        for function in self.file.functions.values():
            for name in function.locals:
                if name in self.file.functions:
                    self.refuse('the local `%s` has the name of a function' % name)
        return self.file

    def constants(self):
        """The numbers that the header names, which are constants of type int."""
        while self.take('enum {'):
            self.constant_of_header()
            while self.take(','):
                self.constant_of_header()
            self.want('} ;')

    def constant_of_header(self):
        name = self.new_name(self.file.constants, 'number')
        self.want('=')
        self.file.constants[name] = self.number_of_header()

    def number_of_header(self):
        """A number of type int, which may be a hexadecimal one."""
        text = self.next('number', 'a number')
        number = int(text, 16) if text.startswith('0x') else int(text.removesuffix('u'))
        if text.endswith('u') or number >= 2 ** 31:
            self.refuse('`%s` is no number of type int' % text)
        return number

    def fitting_type(self):
        """A type of an array whose size is 1 where the numbers of the header are those of the source, and else -1, which C refuses."""
        self.new_name({**self.file.constants, **self.prototypes, **self.file.functions}, 'type')
        self.want('[ (')
        fits = self.same_number()
        while self.take('&&'):
            fits = self.same_number() and fits
        self.want(') ? 1 :')
        if not fits:
            self.refuse('the header does not fit the source: an array has no negative size (6.7.5.2 p1)')
        self.want('- 1 ] ;')

    def same_number(self):
        """Whether a number of the header is this one: `(N == C)`."""
        self.want('(')
        name = self.next('name', 'a number of the header')
        if name not in self.file.constants:
            self.refuse('the header has no number `%s`' % name)
        self.want('==')
        number = self.number_of_header()
        self.want(')')
        return self.file.constants[name] == number

    def wide_types(self):
        """The lines that name the types of 128 bits, each with any name."""
        while self.take('__extension__ typedef'):
            own = 'flow_uint128' if self.take('unsigned') else 'flow_int128'
            self.want('__int128')
            if own in self.types:
                self.refuse('the type has a name')
            self.wide_names[self.next('name', 'the name of a type')] = own
            self.types.add(own)
            self.want(';')

    def prototype_or_function(self):
        head = self.head()
        if not self.take(';'):
            self.function(head)
        elif self.file.functions and not all(each.is_inline for each in self.file.functions.values()):
            self.refuse('prototypes stand before all functions')
        elif head.name in self.prototypes:
            self.refuse('a function has one prototype')
        else:
            self.prototypes[head.name] = self.declared[head.name] = head

    def inline_function(self):
        """`T f(const S *m) { return e; }`, which changes nothing."""
        type_ = self.type()
        name = self.new_name({**self.file.functions, **self.prototypes}, 'function')
        self.want('( const %s * m ) { return' % self.struct)
        self.locals, self.with_m = {}, True
        body = [self.return_(self.line())]
        self.want('}')
        self.file.functions[name] = Function([], type_, name, True, [], {}, body, True)

    def members(self):
        """The struct, whose name stands after its members, and before the first use of it."""
        self.want('typedef struct {')
        while not self.take('}'):
            type_ = self.type()
            name = self.new_name({**self.file.fields, **self.file.arrays}, 'member')
            if self.take('['):
                self.file.arrays[name] = type_, self.count()
                self.want(']')
            else:
                self.file.fields[name] = type_
            self.want(';')
        self.struct = self.new_name((), 'struct')
        self.want(';')
        if not self.file.fields and not self.file.arrays:
            self.refuse('the struct has no member')

    def head(self):
        """A function without its body."""
        begin = self.place
        self.take('static')
        if not self.type_ahead():
            self.refuse('a function is wanted, not `%s`' % self.tokens[self.place].text)
        type_ = self.type()
        name = self.new_name(self.file.functions, 'function')
        self.want('(')
        self.only_reads = self.take('const %s * m' % self.struct)
        with_m, parameters = self.only_reads or self.take('%s * m' % self.struct), {}
        while not self.ahead(')'):
            if with_m or parameters:
                self.want(',')
            parameter_type = self.type()
            parameters[self.new_name(parameters, 'parameter')] = parameter_type
        if not with_m and not parameters:
            self.refuse('a function has a parameter')
        self.want(')')
        return Function([each.text for each in self.tokens[begin:self.place]], type_, name, with_m,
                        list(parameters), parameters, [], False)

    def function(self, head):
        if self.declared.setdefault(head.name, head).head != head.head:
            self.refuse('the prototype of `%s` is another one' % head.name)
        self.locals, self.with_m = dict(head.locals), head.with_m
        self.want('{')
        while self.type_ahead():
            type_ = self.type()
            self.locals[self.new_name(self.locals, 'local')] = type_
            self.want(';')
        while self.ahead('(', 'void', ')') and self.tokens[self.place + 4].text == ';':
            self.unread(head)
        body = self.statements()
        self.file.functions[head.name] = head._replace(locals=self.locals, body=body)

    def unread(self, head):
        """`(void)x;` for a parameter, which does nothing."""
        self.want('( void )')
        name = self.next('name', 'a parameter')
        if name not in head.parameters and not (name == 'm' and head.with_m):
            self.refuse('there is no parameter `%s`' % name)
        self.want(';')

    # -- statements

    def statements(self):
        """Statements up to the end of a block, and that end."""
        found = []
        while not self.take('}'):
            found.append(self.statement())
        return found

    def statement(self):
        line = self.line()
        for word, rest in (('if', self.if_), ('while', self.while_), ('switch', self.switch), ('return', self.return_)):
            if self.take(word):
                return rest(line)
        if self.take('m ->'):
            return self.store(line)
        if self.take('( void )'):
            return self.call(line, None)
        local = self.local()
        self.want('=')
        is_name = self.tokens[self.place].kind == 'name' and self.tokens[self.place].text not in ('INT64_C', 'UINT64_C')
        if is_name and self.tokens[self.place + 1].text == '(':
            return self.call(line, local)
        value = self.expression()
        self.want(';')
        return SetLocal(line, local, value)

    def local(self):
        name = self.next('name', 'a statement or the name of a local')
        if name not in self.locals:
            self.refuse('there is no local `%s`' % name)
        return name

    def member(self):
        if not self.with_m:
            self.refuse('this function has no parameter m')
        return self.next('name', 'the name of a member')

    def store(self, line):
        if self.only_reads:
            self.refuse('this function only reads m')
        name, index = self.member(), None
        if self.take('['):
            index = self.expression()
            self.want(']')
        self.want('=')
        value = self.expression()
        self.want(';')
        return SetField(line, name, value) if index is None else SetElement(line, name, index, value)

    def call(self, line, local):
        """A call up to its `;`."""
        function, arguments = self.next('name', 'the name of a function'), []
        self.want('(')
        with_m = (self.ahead('m', ',') or self.ahead('m', ')')) and self.take('m')
        if with_m and not self.with_m:
            self.refuse('this function has no parameter m')
        while not self.take(')'):
            if with_m or arguments:
                self.want(',')
            arguments.append(self.expression())
        called = self.declared.get(function)
        if called is None:
            self.undeclared.append((function, line))
        if called and with_m and self.only_reads and 'const' not in called.head:
            self.refuse('this function only reads m, and `%s` may change it' % function)
        self.want(';')
        if called and called.with_m != with_m:
            self.refuse('`%s` %s' % (function, 'has m as its first argument' if called.with_m else 'has no parameter m'))
        return Call(line, local, function, with_m, arguments)

    def in_parentheses(self):
        self.want('(')
        e = self.expression()
        self.want(')')
        return e

    def if_(self, line):
        test = self.in_parentheses()
        self.want('{')
        yes, no = self.statements(), []
        if self.take('else'):
            self.want('{')
            no = self.statements()
        return If(line, test, yes, no)

    def while_(self, line):
        test = self.in_parentheses()
        self.want('{')
        return While(line, test, self.statements())

    def return_(self, line):
        value = self.expression()
        self.want(';')
        return Return(line, value)

    def switch(self, line):
        value, cases = self.in_parentheses(), []
        self.want('{')
        while self.take('case'):
            label = self.number(None)
            self.want(':')
            cases.append((label, self.call_in_case()))
            self.want('break ;')
        self.want('default : break ; }')
        self.demand_cases(value, cases)
        return Switch(line, value, cases)

    def call_in_case(self):
        """`x = f(m, e, ..);`, or `(void)f(m, e, ..);`."""
        line = self.line()
        if self.take('( void )'):
            return self.call(line, None)
        local = self.local()
        self.want('=')
        return self.call(line, local)

    def demand_cases(self, value, cases):
        """Refuses cases that set different locals, pass different arguments, or have the same label."""
        same = [call._replace(line=0, function='') for _, call in cases]
        if any(each != same[0] for each in same):
            self.refuse('all cases of a switch set the same local and pass the same arguments')
        type_ = known_type(value, self.file, self.locals, self.widths)
        promoted = type_ and self.widths.promoted(type_)
        unsigned = promoted and promoted.kind == 'unsigned'
        labels = [label % 2 ** promoted.bits if unsigned else label for label, _ in cases]
        if len(set(labels)) < len(labels):
            self.refuse('two labels of a switch are the same')

    # -- expressions

    def expression(self):
        e, is_operand = self.part()
        mark = self.tokens[self.place].text
        if mark not in MARKS and mark != '?':
            return e
        if not is_operand:
            self.refuse('parentheses stand around an operand that is not a single word')
        if mark == '?':
            return self.choice_after(e)
        self.place += 1
        e = Binary(mark, e, self.operand())
        while mark in ('&&', '||') and self.take(mark):
            e = Binary(mark, e, self.operand())
        return e

    def choice_after(self, test):
        """The arms after a test, which have the same type."""
        self.want('?')
        yes = self.operand()
        self.want(':')
        no = self.operand()
        types = [known_type(each, self.file, self.locals, self.widths) for each in (yes, no)]
        if types[0] != types[1]:
            self.refuse('the types after ? and : differ')
        return Choice(test, types[0], yes, no)

    def operand(self):
        e, is_operand = self.part()
        if not is_operand:
            self.refuse('parentheses stand around an operand that is not a single word')
        return e

    def part(self):
        """An expression without an operator between two operands, and whether it is an operand."""
        if self.take('-'):
            return Negative(self.operand()), False
        if self.take('!'):
            return Not(self.operand()), False
        if self.take('('):
            return (self.cast() if self.type_ahead() else self.inside()), True
        if self.take('m ->'):
            return self.member_value(), True
        return self.word_value(), True

    def inside(self):
        """What stands in parentheses, of which the first is passed. Three constants have no parentheses around their parts."""
        e = self.expression_or_sum()
        self.want(')')
        return e

    def expression_or_sum(self):
        """An expression, or `-C - 1`, or `C * INT64_C(2^62) + INT64_C(C)`."""
        begin = self.place
        if self.take('-'):
            e = Negative(self.operand())
            if isinstance(e.part, (Constant, Cast, Binary)) and self.ahead('-', '1', ')'):
                self.place += 1
                return Binary('-', e, self.word_value())
            self.place = begin
        e = self.expression()
        if isinstance(e, Binary) and e.mark == '*' and isinstance(e.right, Constant) and e.right.number == 2 ** 62 \
                and self.ahead('+', 'INT64_C'):
            self.place += 1
            return Binary('+', e, self.word_value())
        return e

    def word_value(self):
        """A local, or a constant without a cast."""
        token = self.tokens[self.place]
        if token.kind == 'number':
            return self.plain_constant()
        for word, bits in (('true', 1), ('false', 0)):
            if self.ahead(word) and 'bool' in self.types:
                self.place += 1
                return Constant(self.widths.int, bits)
        for word, kind in (('INT64_C', 'signed'), ('UINT64_C', 'unsigned')):
            if self.take(word + ' ('):
                return Constant(Type(kind, 64), self.digits_of_64(Type(kind, 64)))
        return Local(self.local())

    def digits_of_64(self, type_):
        """The digits in `INT64_C(C)` or `UINT64_C(C)`, of which the first parenthesis is passed."""
        text = self.next('number', 'a constant')
        if text.endswith('u') or not holds(type_, int(text)):
            self.refuse('a constant is too large for 64 bits, or has `u`')
        self.want(')')
        return int(text)

    def plain_constant(self):
        """A constant of `int`, or with `u` of the unsigned type with so many bits."""
        has_u = self.tokens[self.place].text.endswith('u')
        number = self.digits(None)
        type_ = Type('unsigned', self.widths.int.bits) if has_u else self.widths.int
        if not holds(type_, number):
            self.refuse('a constant is too large for its type')
        return Constant(type_, number)

    def member_value(self):
        name = self.member()
        if not self.take('['):
            return Field(name)
        index = self.expression()
        self.want(']')
        return Element(name, index)

    def cast(self):
        """What begins with a type in parentheses, of which the first is passed: a constant, or an expression brought to it."""
        type_ = self.type()
        self.want(')')
        if self.number_ahead():
            return Constant(type_, self.number(type_))
        return Cast(type_, self.operand())

    def number_ahead(self):
        kinds = [each.kind for each in self.tokens[self.place:self.place + 2]]
        return (kinds[0] == 'number' or (self.ahead('-') and kinds[1] == 'number')
                or self.ahead('(', '-', '9223372036854775807', '-', '1', ')'))

    def number(self, type_):
        """A whole number as a constant of this type, or as a label."""
        if self.take('( - 9223372036854775807 - 1 )'):
            return -2 ** 63
        if self.take('-'):
            return -self.digits('signed')
        return self.digits(type_ and type_.kind)

    def digits(self, kind):
        """A constant without sign, which has `u` where the kind wants it."""
        text = self.next('number', 'a constant')
        has_u = text.endswith('u')
        if (kind == 'signed' and has_u) or (kind == 'unsigned' and not has_u):
            self.refuse('a constant has `u` where its type has no sign, and only there')
        number = int(text.rstrip('u'))
        if number >= 2 ** (64 if has_u else 63):
            self.refuse('a constant is too large for 64 bits')
        return number


def read(text, int_bits=USUAL_INT, headers=()):
    """The file of a text, a character for each byte, with the texts of the headers that it may include, by their names."""
    return Reader(text, int_bits, headers).whole_file()


def read_file(path, int_bits=USUAL_INT):
    """The file of a source, with the headers that stand beside it."""
    texts, folder = {}, os.path.dirname(path)
    for name in [os.path.basename(path)] + [each for each in os.listdir(folder or '.') if each.endswith('.h')]:
        with open(os.path.join(folder, name), 'rb') as file:
            texts[name] = file.read().decode('latin-1')
    return read(texts.pop(os.path.basename(path)), int_bits, texts)


def read_expression(text, file, types, int_bits):
    """An expression over the struct of a file."""
    reader = Reader(text, int_bits)
    reader.file, reader.types, reader.with_m = file, types, True
    e = reader.expression()
    reader.next('end', 'the end')
    return e


# ---- running

class Frame:
    """A call that is going on: its function, what its locals have, and the fuel of its body."""

    def __init__(self, function, fuel):
        self.function, self.values, self.fuel = function, {}, fuel


class Run:
    """A file with its struct."""

    def __init__(self, file, int_bits=USUAL_INT, most=MOST_WORK):
        self.file, self.widths, self.work = file, Widths(int_bits), most
        self.fields = dict.fromkeys(file.fields)                                  # None where nothing was stored
        self.elements = {name: [None] * count for name, (_, count) in file.arrays.items()}

    # -- expressions

    def value(self, e, frame):
        return VALUE[type(e)](self, e, frame)

    def number(self, e, frame):
        return self.value(e, frame).number

    def constant(self, e, frame):
        return Value(brought(e.number, e.type), e.type)

    def local(self, e, frame):
        if e.name not in frame.values:
            raise Wrong('a local is read that was given no value (6.7.8 p10)')
        return Value(frame.values[e.name], frame.function.locals[e.name])

    def field(self, e, frame):
        type_ = self.field_type(e.name)
        if self.fields[e.name] is None:
            raise Wrong('a field is read that was given no value (6.7.8 p10)')
        return Value(self.fields[e.name], type_)

    def field_type(self, name):
        if name not in self.file.fields:
            raise Wrong('there is no such field (6.5.2.3 p2)')
        return self.file.fields[name]

    def element(self, e, frame):
        type_, place = self.place(e, frame)
        if self.elements[e.array][place] is None:
            raise Wrong('an element is read that was given no value (6.7.8 p10)')
        return Value(self.elements[e.array][place], type_)

    def place(self, e, frame):
        """The type of an array and the place of the element that is named."""
        index = self.number(e.index, frame)
        if e.array not in self.file.arrays:
            raise Wrong('there is no such array (6.5.2.3 p2)')
        type_, count = self.file.arrays[e.array]
        if not 0 <= index < count:
            raise Wrong('an index is outside of its array (6.5.6 p8)')
        return type_, index

    def cast(self, e, frame):
        return Value(brought(self.number(e.part, frame), e.type), e.type)

    def negative(self, e, frame):
        number, type_ = self.value(e.part, frame)
        type_ = self.widths.promoted(type_)
        return result(-brought(number, type_), type_, 'a negative')

    def not_(self, e, frame):
        return self.truth(self.number(e.part, frame) == 0)

    def truth(self, condition):
        return Value(1 if condition else 0, self.widths.int)

    def choice(self, e, frame):
        chosen = e.yes if self.number(e.test, frame) != 0 else e.no
        number = brought(self.number(chosen, frame), e.type)
        type_ = self.widths.promoted(e.type)
        return Value(brought(number, type_), type_)

    def binary(self, e, frame):
        if e.mark in ('&&', '||'):
            return self.shortened(e, frame)
        left, right = self.value(e.left, frame), self.value(e.right, frame)
        type_ = self.widths.common(left.type, right.type)
        return self.operation(e.mark, brought(left.number, type_), brought(right.number, type_), type_)

    def shortened(self, e, frame):
        """`&&` and `||`, which don't evaluate the right operand where the left one tells the value."""
        left = self.number(e.left, frame) != 0
        if left == (e.mark == '||'):
            return self.truth(left)
        return self.truth(self.number(e.right, frame) != 0)

    def operation(self, mark, a, b, type_):
        """An operator on two numbers of the common type."""
        if mark in COMPARE:
            return self.truth(COMPARE[mark](a, b))
        if mark in ARITHMETIC:
            what, of = ARITHMETIC[mark]
            return result(of(a, b), type_, what)
        if mark in '/%':
            return division(mark, a, b, type_)
        if type_.kind != 'unsigned':
            raise Wrong('& and | of a signed type (6.5 p4)')
        return Value(a & b if mark == '&' else a | b, type_)

    # -- statements: each gives None where it ends after its last part, and the value where it returned

    def all(self, statements, frame):
        for statement in statements:
            try:
                returned = DO[type(statement)](self, statement, frame)
            except Wrong as wrong:
                wrong.line = wrong.line or statement.line
                raise
            if returned is not None:
                return returned
        return None

    def set_local(self, s, frame):
        frame.values[s.local] = brought(self.number(s.value, frame), frame.function.locals[s.local])

    def set_field(self, s, frame):
        number = self.number(s.value, frame)
        self.fields[s.name] = brought(number, self.field_type(s.name))

    def set_element(self, s, frame):
        type_, place = self.place(s, frame)
        self.elements[s.array][place] = brought(self.number(s.value, frame), type_)

    def call(self, s, frame):
        arguments = [self.number(each, frame) for each in s.arguments]
        returned = self.called(s.function, arguments, frame.fuel)
        if s.local is not None:
            frame.values[s.local] = brought(returned.number, frame.function.locals[s.local])

    def switch(self, s, frame):
        number, type_ = self.value(s.value, frame)
        type_ = self.widths.promoted(type_)
        for label, call in s.cases:
            try:
                is_this = brought(label, type_) == brought(number, type_)
            except Wrong:
                raise Wrong('a label is not one of %s (6.8.4.2 p5)' % NAMES[type_]) from None
            if is_this:
                return self.call(call, frame)
        return None

    def if_(self, s, frame):
        return self.all(s.yes if self.number(s.test, frame) != 0 else s.no, frame)

    def while_(self, s, frame):
        for _ in range(frame.fuel):
            if self.number(s.test, frame) == 0:
                return None
            self.count_work()
            returned = self.all(s.body, frame)
            if returned is not None:
                return returned
        raise NoFuel

    def return_(self, s, frame):
        return Value(brought(self.number(s.value, frame), frame.function.type), frame.function.type)

    # -- functions

    def count_work(self):
        self.work -= 1
        if self.work < 0:
            raise Late

    def called(self, name, arguments, fuel):
        """What a call returns, of these numbers."""
        if fuel == 0:
            raise NoFuel
        self.count_work()
        function = self.file.functions.get(name)
        if function is None:
            raise Wrong('there is no such function (6.5.1 p2)')
        if len(arguments) != len(function.parameters):
            raise Wrong('there are not as many arguments as parameters (6.5.2.2 p2)')
        frame = Frame(function, fuel - 1)
        for parameter, number in zip(function.parameters, arguments):
            frame.values[parameter] = brought(number, function.locals[parameter])
        returned = self.all(function.body, frame)
        if returned is None:
            raise Wrong('the body of `%s` ends without return (6.9.1 p12)' % name)
        return returned

    # -- deeds

    def deed(self, text, fuel):
        """Does a deed, and gives the lines that it writes."""
        text = text.replace(' ', '')
        call = re.fullmatch(r'(\w+)\(((?:-?[0-9]+(?:,-?[0-9]+)*)?)\)', text)
        if call:
            arguments = [int(each) for each in call[2].split(',') if each]
            returned = self.called(call[1], arguments, fuel)
            return ['%s(%s) = %d' % (call[1], ', '.join(map(str, arguments)), returned.number)]
        stored = re.fullmatch(r'(\w+)(?:\[([0-9]+)\])?=(-?[0-9]+)', text)
        if stored:
            self.store(stored[1], stored[2] and int(stored[2]), int(stored[3]))
            return []
        if text != 'show':
            raise Refused(0, 'no deed is `%s`' % text)
        return self.shown()

    def store(self, name, index, number):
        """Gives a field, or the element with an index, a value that must be one of its type."""
        type_, count = (self.file.fields.get(name), 0) if index is None else self.file.arrays.get(name, (None, 0))
        if type_ is None or not holds(type_, number) or (index is not None and index >= count):
            raise Refused(0, 'nothing named `%s` can be %d' % (name, number))
        if index is None:
            self.fields[name] = number
        else:
            self.elements[name][index] = number

    def shown(self):
        """A line for each member of the struct, fields first."""
        members = [(name, [number]) for name, number in self.fields.items()] + list(self.elements.items())
        return ['%s = %s' % (name, ' '.join('unset' if each is None else str(each) for each in numbers)) for name, numbers in members]


def division(mark, a, b, type_):
    """`/` and `%` in a type: 6.5.5 p5, p6."""
    if b == 0:
        raise Wrong('a division by 0 (6.5.5 p5)')
    quotient = abs(a) // abs(b) * (1 if (a < 0) == (b < 0) else -1)
    if not holds(type_, quotient):
        raise Wrong('a quotient is not one of %s (6.5.5 p6)' % NAMES[type_])
    return Value(quotient if mark == '/' else a - b * quotient, type_)


COMPARE = {'==': lambda a, b: a == b, '!=': lambda a, b: a != b, '<': lambda a, b: a < b,
           '<=': lambda a, b: a <= b, '>': lambda a, b: a > b, '>=': lambda a, b: a >= b}
ARITHMETIC = {'+': ('a sum', lambda a, b: a + b), '-': ('a difference', lambda a, b: a - b), '*': ('a product', lambda a, b: a * b)}
VALUE = {Constant: Run.constant, Local: Run.local, Field: Run.field, Element: Run.element, Cast: Run.cast,
         Negative: Run.negative, Not: Run.not_, Binary: Run.binary, Choice: Run.choice}
DO = {SetLocal: Run.set_local, SetField: Run.set_field, SetElement: Run.set_element, Call: Run.call,
      Switch: Run.switch, If: Run.if_, While: Run.while_, Return: Run.return_}


def ending(wrong):
    """The line that a run ends with."""
    if isinstance(wrong, Wrong):
        return 'Wrong%s: %s' % (' in line %d' % wrong.line if wrong.line else '', wrong.rule)
    if isinstance(wrong, Refused):
        return wrong.text
    if isinstance(wrong, NoFuel):
        return 'without fuel'
    if isinstance(wrong, Late):
        return 'no end in %d calls and turns' % MOST_WORK
    return 'too deep for this program'


ENDINGS = Wrong, Refused, NoFuel, Late, RecursionError


# ---- the table

def text_of(block):
    """The text of the file of a block."""
    lines = block.values('line')
    if lines:
        return ''.join(line + '\n' for line in lines)
    functions = block.values('function')
    lines = OPENING + (list(WIDE.values()) if block.values('wide') else [])
    lines.append('typedef struct { %s } s_chart;' % ' '.join(block.values('struct') or ['int8_t f;']))
    lines += [each[:each.index('{')] + ';' for each in functions] + functions
    return ''.join(line + '\n' for line in lines)


def shown_value(run, text, types):
    """The value of an expression, with its type."""
    value = run.value(read_expression(text, run.file, types, run.widths.int.bits), Frame(None, 0))
    return ['%s %d' % (NAMES[value.type], value.number)]


def answer_lines(block):
    """What is written of a block."""
    int_bits = int((block.values('int') or [USUAL_INT])[0])
    fuel = int((block.values('fuel') or [USUAL_FUEL])[0])
    lines = []
    try:
        run = Run(read(text_of(block), int_bits), int_bits)
        types = set(TYPES) if block.values('wide') else set(TYPES) - set(WIDE)
        for word, rest in block.parts:
            if word == 'do':
                lines += run.deed(rest, fuel)
            elif word == 'e':
                lines += shown_value(run, rest, types)
            elif word not in ('int', 'fuel', 'struct', 'function', 'line', 'wide'):
                raise SystemExit('no part of a block is `%s`' % word)
    except ENDINGS as wrong:
        lines.append(ending(wrong))
    return lines


def do_deeds(options):
    """Does the deeds that the words ask for, and gives the status."""
    try:
        run = Run(read_file(options.file, options.int), options.int)
        for deed in options.deeds:
            sys.stdout.writelines(line + '\n' for line in run.deed(deed, options.fuel))
    except ENDINGS as wrong:
        print(ending(wrong))
        return 2 if isinstance(wrong, Refused) else 1
    return 0


def main(words):
    """Does what the words ask for, and gives the status."""
    sys.setrecursionlimit(DEEPEST)
    if words in (['--table'], ['--table', '--check']):
        return tables.answer_table(sys.stdin.buffer, answer_lines, '--check' in words)
    reader = parser(__doc__)
    reader.add_argument('--int', type=int, choices=(16, 32, 64), default=USUAL_INT)
    reader.add_argument('--fuel', type=int, default=USUAL_FUEL)
    reader.add_argument('file', metavar='FILE')
    reader.add_argument('deeds', metavar='DEED', nargs='*')
    return do_deeds(reader.parse_args(words))


if __name__ == '__main__':
    sys.exit(main(sys.argv[1:]))
