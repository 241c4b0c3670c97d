#!/usr/bin/env python3
r"""The text of a code: reading it with every refusal, and printing it.

    python3 checks/reference/code_text.py CODE   writes the code that the file spells in format 2, or says how the text is refused

Lines end with byte 10 and fields are separated by one space. There is one spelling of each line. The lines are

    flowcode F                       the format, 1 or 2
    states N                         and N `s` lines
    data N                           and N `d` lines
    events N                         and N `e` lines (these three are described in declarations.py)
    procs N START REACT              and N procedures, each of which is
    p N                                  and N lines with an instruction each
    end

The instructions are

    set V X       emit E        mark S        clear S       keep S        unless K CONDITION       skip K
    call P B      visit P B     send E        sendto E S P  play          home S                   begin
    pass          ret R

where B is a number or `-`, and the conditions are

    on S          bare S        onhome        barehome      event E       result R                 expr X
    last S

`keep` and `last` belong to format 2 alone. X is an expression in prefix form, its tokens separated by one space: `||`, `&&`,
`==`, `!=`, `<`, `<=`, `>`, `>=`, `+`, `-`, `*` and `/` stand before two expressions, `!` and `~` (which negates a number)
before one. The atoms are `dV` (the datum V), `inS` (whether the state S is active), `#M:F` (the number M / 2^F, with M below
2^99 and F from 0 to 32), `T` and `F`. An expression has at most 64 operators, those before one expression among them.

A text is refused for the first of these:

    5 TextTooLong     It has over 268,435,456 bytes. This comes before the others.
    4 Version         The whole first line begins with `flowcode ` and names neither format.
    1 BadLine         A whole line can't stand where it stands; the first such line is told. A line can't stand where a field
                      has another form than said above: a name that is none, a number over its limit, a scale out of limits.
                      What a number names is not looked at here.
    2 Truncated       Every whole line can stand, and the text ends before the line `end` is whole.
    3 Trailing        A byte follows the line `end`; the line after it is told.
    6 Form            The text is read, and the code isn't well formed. code_acceptance.py says what is.

A refusal is written on standard error as `code L: N Kind` where a line is told, as `code: 6 Form N Kind PROC.PLACE` for a
code that isn't well formed, and as `code: N Kind` otherwise; the status is 1.

In this program an expression is a tuple: ('d', V), ('in', S), ('#', M, F), ('T',), ('F',), ('!', x), ('~', x), or an
operator and its two expressions. An instruction is a tuple of its word and its fields, where a missing note is None, the
fields of `unless` are the number and the condition, and a condition is a tuple of its word and its field."""
import sys

import code_acceptance
import declarations as de
from programs import Ended

MOST_BYTES = 268435456
MOST_OPERATORS = 64
MOST_MANTISSA = 2 ** 99 - 1
MOST_FRACTION = 32
BINARY = ('||', '&&', '==', '!=', '<', '<=', '>', '>=', '+', '-', '*', '/')
UNARY = ('!', '~')
KINDS = {1: 'BadLine', 2: 'Truncated', 3: 'Trailing', 4: 'Version', 5: 'TextTooLong', 6: 'Form'}

# What the fields of each instruction and condition are: a number (n), a note (b), an expression (x) or a condition (c).
INSTRUCTIONS = {'set': 'nx', 'emit': 'n', 'mark': 'n', 'clear': 'n', 'keep': 'n', 'unless': 'nc', 'skip': 'n', 'call': 'nb',
                'visit': 'nb', 'send': 'n', 'sendto': 'nnn', 'play': '', 'home': 'n', 'begin': '', 'pass': '', 'ret': 'n'}
CONDITIONS = {'on': 'n', 'bare': 'n', 'onhome': '', 'barehome': '', 'event': 'n', 'result': 'n', 'expr': 'x', 'last': 'n'}
ONLY_FORMAT_2 = ('keep', 'last')


class Refused(Exception):
    """The number of the refusal, and the number of the line where one is told."""

    def __init__(self, kind, line=None, form=None):
        Exception.__init__(self, kind)
        self.kind, self.line, self.form = kind, line, form

    @property
    def text(self):
        """The line on standard error without its byte 10."""
        where = '' if self.line is None else ' %d' % self.line
        return 'code%s: %d %s' % (where, self.kind, KINDS[self.kind]) + ('' if self.form is None else ' ' + self.form.text)


class Code:
    """A code: what it declares, the numbers of the procedures of the start and of a reaction, and the procedures."""

    def __init__(self, declared, start, react, procs):
        self.declared, self.start, self.react, self.procs = declared, start, react, procs

    def __eq__(self, other):
        return vars(self.declared) == vars(other.declared) and (self.start, self.react, self.procs) == (
            other.start, other.react, other.procs)


# ---- reading

def atom(token):
    if token in ('T', 'F'):
        return (token,)
    if token.startswith('in'):
        return 'in', de.number(token[2:])
    if token.startswith('d'):
        return 'd', de.number(token[1:])
    mantissa, colon, fraction = token[1:].partition(':')
    if not token.startswith('#') or not colon:
        raise de.NotALine
    return '#', de.number(mantissa, MOST_MANTISSA), de.number(fraction, MOST_FRACTION)


def expression(tokens):
    """The expression that all these tokens spell."""
    if sum(token in BINARY + UNARY for token in tokens) > MOST_OPERATORS:
        raise de.NotALine
    at = 0

    def one():
        nonlocal at
        if at == len(tokens):
            raise de.NotALine
        token = tokens[at]
        at += 1
        if token in BINARY:
            first = one()
            return token, first, one()
        if token in UNARY:
            return token, one()
        return atom(token)
    spelled = one()
    if at != len(tokens):
        raise de.NotALine
    return spelled


def words_of(fields, forms, format_of_text):
    """The word at the front with what its fields spell, by a table of forms."""
    word = fields[0]
    if word not in forms or word in ONLY_FORMAT_2 and format_of_text == 1:
        raise de.NotALine
    form, rest, spelled = forms[word], fields[1:], [word]
    for place, kind in enumerate(form):
        if kind in 'xc':                    # an expression or a condition takes all fields that are left
            left = rest[place:]
            if not left:
                raise de.NotALine
            spelled.append(expression(left) if kind == 'x' else words_of(left, CONDITIONS, format_of_text))
            return tuple(spelled)
        if place >= len(rest):
            raise de.NotALine
        spelled.append(None if kind == 'b' and rest[place] == '-' else de.number(rest[place]))
    if len(rest) != len(form):
        raise de.NotALine
    return tuple(spelled)


class Lines:
    """The whole lines of a text one by one."""

    def __init__(self, text):
        self.text, self.at, self.count = text, 0, 0

    def next(self):
        end = self.text.find(b'\n', self.at)
        if end < 0:
            raise Refused(2)
        line = self.text[self.at:end].decode('latin-1')
        self.at, self.count = end + 1, self.count + 1
        return line

    def fields(self):
        return self.next().split(' ')

    def head(self, word, numbers):
        fields = self.fields()
        if fields[0] != word or len(fields) != numbers + 1:
            raise de.NotALine
        return [de.number(field) for field in fields[1:]]


def read_text(text):
    """The code that the text spells, well formed or not."""
    if len(text) > MOST_BYTES:
        raise Refused(5)
    lines = Lines(text)
    try:
        first = lines.next()
        if not first.startswith('flowcode '):
            raise de.NotALine
        if first not in ('flowcode 1', 'flowcode 2'):
            raise Refused(4)
        format_of_text = int(first[-1])
        states = [de.state_line(lines.fields(), n == 0) for n in range(lines.head('states', 1)[0])]
        data = [de.datum_line(lines.fields()) for _ in range(lines.head('data', 1)[0])]
        events = [de.event_line(lines.fields()) for _ in range(lines.head('events', 1)[0])]
        count, start, react = lines.head('procs', 3)
        procs = []
        for _ in range(count):
            length = lines.head('p', 1)[0]
            procs.append([words_of(lines.fields(), INSTRUCTIONS, format_of_text) for _ in range(length)])
        if lines.next() != 'end':
            raise de.NotALine
    except de.NotALine:
        raise Refused(1, lines.count) from None
    if lines.at < len(text):
        raise Refused(3, lines.count + 1)
    return Code(de.Declarations(states, data, events), start, react, procs)


def read_code(text):
    """The well-formed code that the text spells, with its height and its work."""
    code = read_text(text)
    try:
        height, work = code_acceptance.accept(code)
    except code_acceptance.Fault as fault:
        raise Refused(6, None, fault) from None
    return code, height, work


# ---- printing

def expression_text(x):
    if x[0] in BINARY + UNARY:
        return ' '.join([x[0]] + [expression_text(part) for part in x[1:]])
    if x[0] == '#':
        return '#%d:%d' % x[1:]
    return x[0] + ''.join(str(n) for n in x[1:])


def instruction_text(words, forms=None):
    forms = forms or INSTRUCTIONS
    fields = [words[0]]
    for kind, field in zip(forms[words[0]], words[1:]):
        if kind == 'x':
            fields.append(expression_text(field))
        elif kind == 'c':
            fields.append(instruction_text(field, CONDITIONS))
        else:
            fields.append('-' if field is None else str(field))
    return ' '.join(fields)


def print_code(code, format_of_text=2):
    lines = ['flowcode %d' % format_of_text, 'states %d' % len(code.declared.states)]
    lines += [de.state_text(s) for s in code.declared.states]
    lines += ['data %d' % len(code.declared.data)] + [de.datum_text(d) for d in code.declared.data]
    lines += ['events %d' % len(code.declared.events)] + [de.event_text(e) for e in code.declared.events]
    lines += ['procs %d %d %d' % (len(code.procs), code.start, code.react)]
    for proc in code.procs:
        lines += ['p %d' % len(proc)] + [instruction_text(i) for i in proc]
    return ''.join(line + '\n' for line in lines + ['end']).encode()


def upgrade(text):
    """How `upgrade` ends."""
    try:
        return Ended(print_code(read_code(text)[0]).decode(), '', 0)
    except Refused as refused:
        return Ended('', refused.text + '\n', 1)


def main(words):
    if len(words) != 1:
        sys.exit(__doc__)
    with open(words[0], 'rb') as file:
        return upgrade(file.read()).written()


if __name__ == '__main__':
    sys.exit(main(sys.argv[1:]))
